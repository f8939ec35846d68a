import re,glob,os
t={};n={}
for l in open('/tmp/gate.log',errors='replace'):
    m=re.match(r'rt: must-fail (\w+)/(\w+): .*; (\d+) s\)',l)
    if m: t[m[1]]=t.get(m[1],0)+int(m[3]); n[m[1]]=n.get(m[1],0)+1
old=sum(t.values()); new=0
for c in t:
    k=len(glob.glob('/work/clones/l2/crates/%s/must-fail/*.edit'%c)); new+=t[c]/n[c]*k
print(old,new)
