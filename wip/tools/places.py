# places.py ROOT CRATE FN: after `rt goals CRATE`, the places of a function, each need with the chain back of its places.
import sys,re,glob
root,crate,fn=sys.argv[1:4]
base=sys.argv[4]+f"/Rattle·{crate}·proofs/proofs/{fn}"
lts=open(base+"/Lts.antt").read()
back={}
cur=None
for line in lts.split("\n"):
    m=re.match(r"\s*(?:pub )?record ([A-Z][\w\-]*)",line)
    if m: cur=m.group(1)
    m=re.match(r"\s*pub before : ([A-Z][\w\-]*)",line)
    if m and cur: back[cur]=m.group(1)
def chain(x):
    out=[x]
    while x in back:
        x=back[x]; out.append(x)
    return out
tie=open(base+"/Tie.antt").read()
for m in re.finditer(r"Need-([\w\-]+)[^\n]* : ",tie): pass
lt=lts
for m in re.finditer(r"(?:abbrev )?(?:pub )?(Need-[\w\-]+)\s*:? ?.*?\n?.*?=\s*\(c : ([A-Z][\w\-]*)",lt):
    print(m.group(1),'::',' < '.join(chain(m.group(2))))
