import re,os,glob,sys
os.chdir(sys.argv[1])
text=open('crates.txt').read()
order=[l.split(':')[0] for l in text.split('\n') if l and not l.startswith('#')]
kit={'check','libc','io','os','bytes'}
def uses(c):
    out=set()
    for f in glob.glob(f'crates/{c}/**/*.antt',recursive=True)+glob.glob(f'crates/{c}/**/*.rt',recursive=True):
        t=open(f).read()
        for m in re.finditer(r'Rattle·(\w+)',t):
            if m.group(1) in order and m.group(1)!=c: out.add(m.group(1))
        if f.endswith('.rt'):
            t=re.sub(r'//.*','',t)
            for m in re.finditer(r'(?<![\w.])(\w+)::',t):
                if (m.group(1) in order or m.group(1) in kit) and m.group(1)!=c: out.add(m.group(1))
    return out
out=[]
for l in text.split('\n'):
    if l and not l.startswith('#'):
        c,d=l.split(':',1); u=uses(c)|{x for x in d.split() if x in kit}
        l=c+':'+''.join(' '+x for x in order if x in u)+''.join(' '+x for x in sorted(u) if x in kit)
    out.append(l)
open('crates.txt','w').write('\n'.join(out))
