from itertools import product
S=(-1,0,1)
def m(a,b): return a*b
def cc(p,q,r): return (1 in (p,q,r))==(-1 in (p,q,r))
def sooner(aw,ax,wx):
    return (ax!=1 or wx==1) if aw==1 else (ax==-1 and (aw!=-1 or wx==1))
def bad(name,n,f):
    c=[s for s in product(S,repeat=n) if not f(*s)]
    print(name,len(c),c[:5])
imp=lambda *h: (not all(h[:-1])) or h[-1]
bad('swept',8,lambda aw,ax,ay,wx,xy,daw,dax,day: imp(ax!=0 or dax==-1, not(-aw!=-1 and ay==1), cc(-(ax*1),aw*xy,ay*wx), cc(1,-(daw*ay),day*aw), cc(wx,-(daw*ax),dax*aw), cc(xy,-(dax*ay),day*ax), not sooner(ax,aw,-wx), sooner(ax,ay,xy), wx!=-1 and xy==1))
bad('swept without dots of wy',8,lambda aw,ax,ay,wx,xy,daw,dax,day: imp(ax!=0 or dax==-1, not(-aw!=-1 and ay==1), cc(-(ax*1),aw*xy,ay*wx), cc(wx,-(daw*ax),dax*aw), cc(xy,-(dax*ay),day*ax), not sooner(ax,aw,-wx), sooner(ax,ay,xy), wx!=-1 and xy==1))
bad('first',2,lambda ax,xy: imp(sooner(ax,1,xy), ax==1 and xy==1))
bad('not-back',3,lambda az,ax,zx: imp(zx!=1, not(az==1 and ax==1 and zx==0), not sooner(ax,az,-zx), ax!=1))
bad('past',5,lambda ax,ay,xy,dax,day: imp(ax!=1, xy!=1, ax!=0 or dax==-1, cc(xy,-(dax*ay),day*ax), sooner(ax,ay,xy), False))
bad('same',5,lambda az,ax,zx,zb,ab: imp(cc(-(ax*zb),az*1,ab*zx), zb!=1, not(az==1 and ax==1 and zx==0)))
bad('own',4,lambda ax,dax,ab,dab: imp(not(-ax!=-1 and ab==1), cc(1,-(dax*ab),dab*ax), ax!=0 or dax==-1))
