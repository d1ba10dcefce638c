# unused_laws.py ROOT: names defined in proofs/ (and specs/) that no other line of the tree uses; those that docs/ name are marked.
import re,glob,sys
root=sys.argv[1]
files=[f for f in glob.glob(root+'/crates/**/*.antt',recursive=True)]
rt=glob.glob(root+'/crates/**/*.rt',recursive=True)
docs=' '.join(open(f).read() for f in glob.glob(root+'/docs/*.md')+[root+'/README.md'])
tok=re.compile(r"[^\s(){},;.·|]+")
count={}
where={}
text={}
for f in files+rt:
    s=open(f).read(); text[f]=s
    for line in s.split('\n'):
        if line.strip().startswith('use ') or line.strip().startswith('--'): 
            continue
        for t in tok.findall(line): count[t]=count.get(t,0)+1
out=[]
for f in files:
    L=text[f].split('\n')
    for i,line in enumerate(L):
        m=re.match(r"^(\s*)(?:abbrev |unfoldable )?(?:pub )?(?:data |record )?([^\s:(]+) : ",line) or re.match(r"^(\s*)(?:pub )?(?:record|data) ([^\s:(]+)",line)
        if not m: continue
        ind=len(m.group(1)); n=m.group(2)
        if n in ('let','go') or n.startswith('--'): continue
        # own lines: block from i until next line with indent<=ind that's not starting with n
        own=0
        j=i
        while j<len(L):
            if j>i and L[j].strip() and (len(L[j])-len(L[j].lstrip()))<=ind and not re.match(r"\s*"+re.escape(n)+r"(\s|$)",L[j]) : break
            own+=sum(1 for t in tok.findall(L[j]) if t==n) if not L[j].strip().startswith('--') else 0
            j+=1
        if count.get(n,0)<=own:
            out.append((f.replace(root+'/crates/',''),i+1,n,j-i,'DOC' if re.search(r'(?<![\w-])'+re.escape(n)+r'(?![\w-])',docs) else ''))
for o in out: print(*o)
