import struct,random,os
def pt(p): return struct.pack("<dd",float(p[0]),float(p[1]))
def ring(r): return struct.pack("<I",len(r)+1)+b"".join(map(pt,r))+pt(r[0])
def tri(t): return b"\x01"+struct.pack("<II",17,1)+ring(t)
def poly(rings): return b"\x01"+struct.pack("<II",3,len(rings))+b"".join(map(ring,rings))
def sheet(ts,ps):
    tin=b"\x01"+struct.pack("<II",16,len(ts))+b"".join(map(tri,ts))
    return b"\x01"+struct.pack("<II",7,1+len(ps))+tin+b"".join(poly(p) for p in ps)
def save(n,b): open(n+".wkb","wb").write(b); print(n,len(b))
# fan: base of 1023 cuts, apex
def fan(n):
    return [((i,0),(i+1,0),(0,1000000)) for i in range(n)]+[((n,0),(n,1000000),(0,1000000))]
T=fan(1023); W=1023
fr=[(0,0),(W,0),(W,1000000),(0,1000000)]
# frame polygon with edges back and forth along base
def shuttle(k):
    r=[(0,0)]
    for i in range(k): r+=[(W,0),(0,0)]
    return r+[(W,0),(W,1000000),(0,1000000)]
save("fan_shuttle",sheet(T,[[shuttle(2045)]]))
random.seed(1)
def hops(k):
    return [(0,0)]+[(random.randrange(0,W+1),0) for _ in range(k)]+[(W,0),(W,1000000),(0,1000000)]
save("hops",sheet(T,[[hops(4090)]]))
save("hops64",sheet(T,[[hops(58)] for _ in range(64)]))
# grid
def grid(nx,ny,s=100):
    ts=[]
    for j in range(ny):
        for i in range(nx):
            a=(i*s,j*s);b=((i+1)*s,j*s);c=((i+1)*s,(j+1)*s);d=(i*s,(j+1)*s)
            ts+=[(a,b,c),(a,c,d)]
    return ts
G=grid(32,16)
def rect(x0,y0,x1,y1,s=100):
    r=[(x,y0) for x in range(x0,x1)]+[(x1,y) for y in range(y0,y1)]+[(x,y1) for x in range(x1,x0,-1)]+[(x0,y) for y in range(y1,y0,-1)]
    return [(x*s,y*s) for x,y in r]
save("large",sheet(G,[[rect((k%8)*4,(k//8)*2,(k%8)*4+4,(k//8)*2+2)] for k in range(64)]))
save("large_full",sheet(G,[[rect((k%4)*2,(k//4)%4,(k%4)*2+20,(k//4)%4+8)] for k in range(64)]))
def big(x0,y0,x1,y1,s=100): return [(x0*s,y0*s),(x1*s,y0*s),(x1*s,y1*s),(x0*s,y1*s)]
save("corners",sheet(G,[[big((k%8)*4,(k//8)*2,(k%8)*4+4,(k//8)*2+2)] for k in range(64)]))
save("small",sheet(grid(2,2),[[rect(0,0,1,2)],[rect(1,0,2,2)]]))
save("medium",sheet(grid(16,8),[[rect((k%4)*4,(k//4)*2,(k%4)*4+4,(k//4)*2+2)] for k in range(16)]))
# all own all
full=[(0,0)]+[(x*100,0) for x in range(1,32)]+[(3200,0),(3200,1600)]+[(x*100,1600) for x in range(31,0,-1)]+[(0,1600)]
save("all_own_all",sheet(G,[[big(0,0,32,16)] for _ in range(64)]))
# many lines with both directions
def zig(k):
    r=[(0,0)]
    pts=[(x*100,y*100) for x in range(33) for y in range(17)]
    for i in range(k):
        p=random.choice(pts); r+=[p,(0,0)]
    return r+[(3200,0),(3200,1600),(0,1600)]
save("spokes",sheet(G,[[zig(2040)]]))
# ends off the table, cancelling
def off(k):
    r=[(0,0)]
    for i in range(k):
        p=(random.randrange(1,3200),random.randrange(1,1600)); r+=[p,(0,0)]
    return r+[(3200,0),(3200,1600),(0,1600)]
save("off_table",sheet(G,[[off(2040)]]))
def off2(k):
    r=[(0,0)]; w=[]
    for i in range(k): w.append((random.randrange(1,3200),random.randrange(1,1600)))
    return r+w+w[::-1][1:]+[(0,0),(3200,0),(3200,1600),(0,1600)]
save("off_both",sheet(G,[[off2(2040)]]))
def walk(k):
    pts=[(x*100,y*100) for x in range(33) for y in range(17)]
    w=[random.choice(pts) for _ in range(k)]
    return [(0,0)]+w+w[::-1][1:]+[(0,0),(3200,0),(3200,1600),(0,1600)]
save("walk",sheet(G,[[walk(2040)]]))
