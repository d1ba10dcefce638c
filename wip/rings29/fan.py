import struct,sys
def wkb_header(t,n): return struct.pack('<BII',1,t,n)
def pts(l): return struct.pack('<I',len(l))+b''.join(struct.pack('<dd',*p) for p in l)
def sheet(tris,members):
    b=wkb_header(7,1+len(members))+wkb_header(16,len(tris))
    for t in tris: b+=wkb_header(17,1)+pts(list(t)+[t[0]])
    for parts in members:
        b+=wkb_header(6,len(parts))
        for rings in parts:
            b+=wkb_header(3,len(rings))
            for r in rings: b+=pts(list(r)+[r[0]])
    return b
n=1024; q=n//4; s=q*2
per=[(2*i,0) for i in range(q)]+[(s,2*i) for i in range(q)]+[(s-2*i,s) for i in range(q)]+[(0,s-2*i) for i in range(q)]
c=(s//2,s//2)
tris=[(c,per[i],per[(i+1)%n]) for i in range(n)]
def member(k):
    own=[tris[i] for i in range(n) if i%2==k]
    return [own[j:j+8] for j in range(0,len(own),8)]
open('/tmp/w29/fan.wkb','wb').write(sheet(tris,[member(0),member(1)]))
# strips: many small areas apart: grid with checkered owners
def grid(w,h):
    t=[]
    for y in range(h):
        for x in range(w): t+=[((x,y),(x+1,y),(x+1,y+1)),((x,y),(x+1,y+1),(x,y+1))]
    return t
g=grid(32,16)
def m(k):
    own=[t for i,t in enumerate(g) if i%2==k]
    return [own[j:j+8] for j in range(0,len(own),8)]
open('/tmp/w29/halves.wkb','wb').write(sheet(g,[m(0),m(1)]))
