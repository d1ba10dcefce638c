import sys; sys.argv=['x']
exec(open('/tmp/w29/fan.py').read().split('n=1024')[0])
def strips(xs):
    t=[]
    for a,b in zip(xs,xs[1:]): t+=[((a,0),(b,0),(b,4)),((a,0),(b,4),(a,4))]
    return t
def rect(x,y): return [(x[0],y[0]),(x[1],y[0]),(x[1],y[1]),(x[0],y[1])]
def star(m,l): return [(m,l[i],l[(i+1)%len(l)]) for i in range(len(l))]
W=lambda n,b: open('/tmp/w29/%s.wkb'%n,'wb').write(b)
st=strips([0,2,4,6,8]); ft=lambda a,b: rect((a,b),(0,4))
W('c1',sheet(st,[[[ft(0,2),ft(4,6)]],[[ft(2,4),ft(6,8)]]]))
W('c2',sheet(st,[[[ft(0,8)]]]))
q=star((2,2),[(0,0),(4,0),(4,4),(0,4)]); W('c3',sheet(q,[[list(q[0::2])],[list(q[1::2])]]))
q=star((2,2),[(0,0),(4,0),(4,2),(4,4),(0,4),(0,2)]); W('c4',sheet(q,[[list(q[0::2])],[list(q[1::2])]]))
t=[]
for y in range(0,8,2):
    for x in range(0,8,2): t+=[((x,y),(x+2,y),(x+2,y+2)),((x,y),(x+2,y+2),(x,y+2))]
lo,up=rect((2,4),(2,4)),rect((4,6),(4,6))
W('c5',sheet(t,[[[rect((0,8),(0,8)),lo[::-1],up[::-1]]],[[lo,up]]]))
