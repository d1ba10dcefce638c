exec(open("gen.py").read().split("# grid")[0].split("save(\"fan_shuttle")[0])
def save(n,b): open(n+".wkb","wb").write(b); print(n,len(b))
ap=(0,1000000)
r=[(0,0),(W,0),(W,1000000),ap]
k=[]
for i in range(2044): k+=[((i*7)%1022+1,0),ap]
save("fan_spokes",sheet(T,[[r+k]]))
# two apexes lines: distinct lines through off points
import random
random.seed(5)
k=[]
for i in range(2044): k+=[(random.randrange(1,1023),random.randrange(1,999999)),ap]
save("fan_off",sheet(T,[[r+k]]))
