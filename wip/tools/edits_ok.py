import glob,os,sys
root=sys.argv[1]; bad=0
for e in sorted(glob.glob(root+'/crates/*/must-fail/*.edit')):
    crate=e.split('/crates/')[1].split('/')[0]
    f=None
    for line in open(e).read().split('\n'):
        if line.startswith('file:'): f=line[5:].strip()
        elif line.startswith('old:'):
            old=line[4:].strip()
            p=f'{root}/crates/{crate}/{f}'
            n=open(p).read().count(old) if os.path.exists(p) else -1
            if n!=1: print(e.replace(root+'/',''),f,repr(old),n); bad+=1
print('bad',bad)
