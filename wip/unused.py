import re,sys,glob
for f in sorted(sum((glob.glob(r,recursive=True) for r in sys.argv[1:]),[])):
    s=open(f).read()
    for m in re.finditer(r"(?m)^(?:ghost )?use ([^\n{]*?)(?:\.\{([^}]*)\})?( as \S+)?;?$",s):
        if not m.group(2): continue
        body=s[:m.start()]+s[m.end():]
        body=re.sub(r"(?m)^(ghost )?use [^\n{]*(\.\{[^}]*\})?;?$","",body)
        body=re.sub(r"(?m)^\s*(--|//).*$","",body)
        for n in m.group(2).split(','):
            n=n.strip()
            if not n: continue
            name=n.split(' as ')[-1].strip()
            parts=[p for p in name.split('_') if p]
            if '_' in name and parts:
                ok=all(re.search(r"(?<![^\s()\[\]{},.;⌜⌝])"+re.escape(p)+r"(?![^\s()\[\]{},.;⌜⌝])",body) for p in parts)
            else:
                ok=re.search(r"(?<![^\s()\[\]{},;.⌜⌝])"+re.escape(name)+r"(?![^\s()\[\]{},;.⌜⌝])",body)
            if name in('[]',): ok='[]' in body
            if not ok: print(f.replace('/work/main/crates/',''),m.group(1),name)
