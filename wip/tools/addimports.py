import re,sys
log=open(sys.argv[1]).read()
done=set()
for m in re.finditer(r"^(/\S+?):\d+:\d+: error: .*?`([^`]+)` is not in scope: add `use ([^`]+?)\.\{([^}]+)\}`",log,flags=re.M):
    f,name,mod,n=m.groups()
    if (f,n) in done: continue
    done.add((f,n))
    s=open(f).read()
    ghost = "ghost " if f.endswith(".rt") else ""
    semi = ";" if f.endswith(".rt") else ""
    pat=re.compile(r"^((?:ghost )?use "+re.escape(mod)+r"\.\{)([^}]*)(\};?)$",re.M)
    k=pat.search(s)
    if k: s=s[:k.start()]+k.group(1)+k.group(2)+", "+n+k.group(3)+s[k.end():]
    else:
        last=list(re.finditer(r"^(?:ghost )?use .*$",s,flags=re.M))[-1]
        s=s[:last.end()]+f"\n{ghost}use {mod}.{{{n}}}{semi}"+s[last.end():]
    open(f,'w').write(s); print("added",n,"from",mod,"to",f)
