import re,os
S='/work/shared/studies/turning/'; W='/work/wt/29/crates/'
def rd(p): return open(S+p).read()
def wr(p,t):
    os.makedirs(os.path.dirname(W+p),exist_ok=True); open(W+p,'w').write(t)
where={}
for n in 'Sign minus null plus sign isPlus isMinus isNull opposite _⊗_ Has has has-only sign-neg sign-* sign-times sign-scale by-T by-no-T ltZ-sign leZ-sign eqZ-sign ltZ-plus ltZ-minus'.split(): where[n]='Rattle·whole_signs.proofs.Signs'
for n in 'each Claim Holds is _⊃_ _==_'.split(): where[n]='Rattle·whole_signs.proofs.Each'
for n in 'could-cancel cancels not-plus'.split(): where[n]='Rattle·whole_signs.proofs.Cancelling'
for n in 'turn-turn keeps-is triangle-wind'.split(): where[n]='Rattle·plane_winding.proofs.Belongs'
turning='sharper beats sharpest following'.split()
own={ # new place of study's modules
 'Signs':('plane_turning','Rays'),'Following':('plane_turning','Following'),
 'Turned':('table_fans','Turned'),'Fans':('table_fans','Fans'),'Hull':('table_fans','Hull'),
 'Balance':('repair_rings','Balance'),'Injective':('repair_rings','Injective'),'Cycles':('repair_rings','Cycles'),'Earliest':('repair_rings','Earliest'),'Rings':('repair_rings','Rings'),'Examples':('repair_rings','Examples')}
def proofs(c,crate,mod): return ('Rattle·%s·proofs.proofs.%s' if c==crate else 'Rattle·%s.proofs.%s')%(c,mod)
def specs(c,crate,mod): return ('Rattle·%s·specs.specs.%s' if c==crate else 'Rattle·%s.specs.%s')%(c,mod)
def imports(t,crate):
    out=[]; lines=t.split('\n'); uses={}; order=[]; first=None; res=[]
    def add(m,n):
        if m not in uses: uses[m]=[]; order.append(m)
        if n not in uses[m]: uses[m].append(n)
    for ln in lines:
        m=re.match(r'use ([^{]*)\.\{(.*)\}$',ln)
        if not m: res.append(ln); continue
        if first is None: first=len(res); res.append('@@USES')
        mod,names=m.group(1),[x.strip() for x in m.group(2).split(',')]
        for n in names:
            n={'Rule':'Claim','Says':'Holds'}.get(n,n) if 'winding' in mod else n
            if 'winding.proofs' in mod and n in where: add(where[n],n)
            elif 'winding.proofs' in mod: add(mod.replace('Rattle·winding','Rattle·plane_winding'),n)
            elif mod=='Rattle·winding.specs.Winding': add('Rattle·plane_winding.specs.Winding',n)
            elif mod=='Rattle·table.specs.Sides': add('Rattle·table.specs.Opposites',n)
            elif mod=='Rattle·bounding.specs.Sides' and n=='passing': add('Rattle·whole.specs.Sums',n)
            elif mod.startswith('Rattle·bounding'): add(mod.replace('bounding','repair_sides'),n)
            elif mod=='Rattle·turning·specs.specs.Rings': add(specs('plane_turning',crate,'Turning') if n in turning else specs('repair_rings',crate,'Rings'),n)
            elif mod.startswith('Rattle·turning·proofs'):
                s=mod.split('.')[-1]
                if n=='wedge': add(proofs('plane_turning',crate,'Rays'),n)
                else: c,f=own[s]; add(proofs(c,crate,f),n)
            elif mod=='Rattle·table.specs.Table' and n=='frame': add(mod,'frameEdges')
            else: add(mod,n)
    text='\n'.join('use %s.{%s}'%(m,', '.join(uses[m])) for m in order)
    return '\n'.join(res).replace('@@USES',text)
for s,(c,f) in own.items():
    t=rd('proofs/%s.antt'%s)
    if s in('Signs','Fans','Turned'): t=re.sub(r'\bRule\b','Claim',t); t=re.sub(r'\bSays\b','Holds',t)
    t=re.sub(r'(?<![·\w])RuleC table\b','RuleC (frameEdges table) table',t)
    t=t.replace('edges (frame (corners table))','frameEdges table').replace('edges (frame (corners (t ∷ l)))','frameEdges (t ∷ l)')
    wr('%s/proofs/%s.antt'%(c,f),imports(t,c))
sp=rd('specs/Rings.antt')
cut=sp.index('-- The sides from e on, each the one')
head,tail=sp[:cut],sp[cut:]
h0=head.index('-- For one who arrives')
wr('plane_turning/specs/Turning.antt','''-- Which side follows an arriving one: the sharpest turn to the right.
use mathlib.Core.Bool.{Bool, cond, _&&_, _||_}
use mathlib.Core.List.{List, [], _∷_}
use lib.IntN.{pos}
use lib.Signed.{leZ, ltZ}
use Rattle·plane.specs.Points.{Point, Edge, samePoint, turn}

'''+head[h0:].rstrip()+'\n')
wr('repair_rings/specs/Rings.antt','''-- The rings that the boundary sides of a set make up, and the closed lines of their points.
use mathlib.Core.Bool.{Bool, cond}
use mathlib.Core.List.{List, [], _∷_, _++_, map, flatMap}
use Prim.Native.Nat.{ℕ, zero, suc}
use lib.Dec.{leb}
use lib.ListN.{length}
use Rattle·whole.specs.Sums.{any, every, passing}
use Rattle·plane.specs.Points.{Edge, sameEdge}
use Rattle·plane.specs.Members.{Ring}
use Rattle·plane_turning.specs.Turning.{following}
use Rattle·table.specs.Opposites.{foundAt}

'''+tail)
wr('plane_turning/specs/Lib.antt','-- The sharpest turn to the right.\npub mod Turning\n')
wr('repair_rings/specs/Lib.antt','-- The rings of boundary sides.\npub mod Rings\n')
wr('plane_turning/proofs/Lib.antt','-- Rays from a corner, and the side that follows.\npub mod Rays\npub mod Following\n')
wr('table_fans/proofs/Lib.antt','-- The triangles round a corner, and the sides on the frame.\npub mod Turned\npub mod Fans\npub mod Hull\n')
wr('repair_rings/proofs/Lib.antt','-- The boundary sides of a set fall into rings.\npub mod Balance\npub mod Injective\npub mod Cycles\npub mod Earliest\npub mod Rings\npub mod Examples\n')
wr('plane_turning/src/lib.rt','// No code: the sharpest turn to the right, and that rays from a corner are told apart by signs.\n')
wr('table_fans/src/lib.rt','// No code: no two triangles of a table overlap round a corner, and a side with no reverse lies on the frame.\n')
wr('repair_rings/src/lib.rt','// No code: the rings of the boundary sides of a set, closed and each side in one once.\n')
