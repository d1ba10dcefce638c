#!/usr/bin/env python3
"""edits.py ROOT CRATE [NAME..]: apply each must-fail edit (all pairs) in turn, run rt dev, print the first errors, restore."""
import sys,os,glob,subprocess,time
root,crate=sys.argv[1:3]; names=sys.argv[3:]
d=f"{root}/crates/{crate}"
for e in sorted(glob.glob(d+"/must-fail/*.edit")):
    n=os.path.basename(e)[:-5]
    if names and n not in names: continue
    saved={}; f=None; bad=None; pairs=[]
    for l in open(e).read().split("\n"):
        if l.startswith("file: "): f=d+"/"+l[6:]
        elif l.startswith("old: "): o=l[5:]
        elif l.startswith("new: "): pairs.append((f,o,l[5:]))
        elif l.strip(): bad=l
    if bad: print(n,"ODD LINE",bad); continue
    ok=True
    for f,o,w in pairs:
        if f not in saved: saved[f]=open(f).read()
        s=open(f).read() 
        c=s.count(o)
        if c!=1: print(n,"OLD TEXT OCCURS",c,o); ok=False; break
        open(f,"w").write(s.replace(o,w))
    t=time.time()
    try:
        if ok: r=subprocess.run(["rt","dev",crate],cwd=root,capture_output=True,text=True)
    finally:
        for f,s in saved.items(): open(f,"w").write(s)
    if not ok: continue
    out=(r.stdout+r.stderr).split("\n")
    errs=[x for x in out if "error" in x][:2]
    lg=[x for x in out if x.startswith("logic=")]
    print(n,"%.0f s"%(time.time()-t),"SURVIVED" if lg and lg[-1].startswith("logic=proved") else "refused",flush=True)
    for x in errs: print("    ",x.replace(root+"/crates/","")[:260],flush=True)
