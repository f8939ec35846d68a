import glob,os,re,sys
R='/work/clones/h3'; bad=0;n=0
for e in sorted(glob.glob(R+'/crates/*/must-fail/*.edit')):
    c=e.split('/crates/')[1].split('/')[0]; ts={}; f=None; pairs=0; n+=1
    facts={}
    for l in open(e,encoding='utf-8').read().split('\n'):
        m=re.match(r'# ([A-Za-z0-9_-]+) \(([A-Za-z0-9_-]+)\): ',l)
        if m: facts.setdefault(m[2],[]).append(m[1])
        if l.startswith('file: '): f=l[6:]
        elif l.startswith('old: '): o=l[5:]
        elif l.startswith('new:'):
            x=ts.get(f) or open(f'{R}/crates/{c}/{f}',encoding='utf-8').read()
            if x.count(o)!=1: print('BAD',e,x.count(o),o); bad+=1
            ts[f]=x.replace(o,l[4:].removeprefix(' ')); pairs+=1
    if not pairs: print('NO PAIR',e); bad+=1
    for k,v in facts.items():
        if len(v)>1: print('SAME FACT',e.split('/crates/')[1],k,v); bad+=1
    if facts and len(set(sum(facts.values(),[])))==0: pass
print(n,'files',bad,'bad')
