import subprocess,sys
base,tip=sys.argv[1:3]
out=subprocess.run(['git','diff','--numstat','--no-renames',base,tip,'--','crates'],capture_output=True,text=True).stdout
d={}
for l in out.splitlines():
    a,b,f=l.split('\t'); p=f.split('/')
    k=(p[1],p[2]); x=d.setdefault(k,[0,0]); x[0]+=int(a); x[1]+=int(b)
names=sorted({k[0] for k in d})
for n in names:
    row=[n]
    for s in ('src','specs','proofs'):
        a,b=d.get((n,s),[0,0]); row.append(('+%s'%format(a,',') if a else '')+(' -%s'%format(b,',') if b else '') or '0')
    print('| '+' | '.join(row)+' |')
