#!/usr/bin/env python3
"""chain.py fold|unfold|show GEN PROOF [NEED]: record paths of a function's Needs as names.
fold: `c .before .before .x` becomes `c @x`; a chain that ends at a record becomes `c @@Record`. unfold: the reverse, over newly generated files."""
import re,sys,os,glob
mode,gen,proof=sys.argv[1:4]
fn=os.path.basename(os.path.dirname(proof))
lts=[p for p in glob.glob(gen+'/*·proofs/proofs/'+fn+'/Lts.antt')]
if not lts:
    lts=[p for p in glob.glob(gen+'/**/'+fn+'/Lts.antt',recursive=True)]
text=open(lts[0]).read()
recs={}
cur=None
for line in text.split('\n'):
    m=re.match(r'\s*pub record ([^\s:]+)',line)
    if m: cur=m.group(1); recs.setdefault(cur,{}); continue
    m=re.match(r'\s*pub ([^\s:]+) :\s*(.*)$',line)
    if m and cur: recs[cur][m.group(1)]=m.group(2).strip()
    elif re.match(r'\s*(abbrev|module|where)',line): cur=None
needs={}
for m in re.finditer(r'abbrev pub (Need-[^\s:]+) :.*?\n\s*\1[^=]*=\s*\n?\s*\(c : ([^\s)]+)',text,re.S):
    needs[m.group(1)]=m.group(2)
def rtype(t): return t.split()[0].strip('()') if t else None
def path(rec):
    out=[];r=rec
    while r and r in recs:
        out.append(r)
        b=recs[r].get('before')
        r=rtype(b) if b else None
    return out
if mode=='show':
    want=sys.argv[4:] 
    for n,r in needs.items():
        if want and n not in want and n[5:] not in want: continue
        print(n,r)
        for i,x in enumerate(path(r)):
            print('   ',i,x,[f for f in recs[x] if f!='before'])
    sys.exit()
src=open(proof).read()
parts=re.split(r'(?m)^(?=[^\s-][^\n]* : tie\.Need-)',src)
out=[]
for part in parts:
    m=re.match(r'[^\n]* : tie\.(Need-[^\s]+)',part)
    if not m or m.group(1) not in needs:
        if m: print('no need',m.group(1),file=sys.stderr)
        out.append(part); continue
    chain=path(needs[m.group(1)])
    if mode=='fold':
        def f(mm):
            k=mm.group(1).count('.before')
            field=mm.group(2)
            r=chain[k] if k<len(chain) else None
            if r is None: return mm.group(0)
            if field and field in recs[r]: return 'c @'+field
            if field: return 'c @@'+r+' .'+field
            return 'c @@'+r
        part=re.sub(r"\bc((?: \.before)*)(?: \.([^\s().,;]+))?",lambda mm: f(mm) if (mm.group(1) or mm.group(2)) else mm.group(0),part)
    else:
        def g(mm):
            name=mm.group(2)
            if mm.group(1)=='@@':
                for i,r in enumerate(chain):
                    if r==name: return 'c'+' .before'*i
            else:
                for i,r in enumerate(chain):
                    if name in recs[r]: return 'c'+' .before'*i+' .'+name
            print('no',name,'in',m.group(1),[x for x in chain],file=sys.stderr)
            return mm.group(0)
        part=re.sub(r"\bc (@@?)([^\s().,;]+)",g,part)
    out.append(part)
open(proof,'w').write(''.join(out))
