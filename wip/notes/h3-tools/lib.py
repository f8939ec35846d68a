import os, re, json, glob, importlib, sys
sys.path.insert(0,'/tmp/h3'); t=importlib.import_module('try')
ROOT=t.ROOT
NEED=r'(returns|exits|index|entry|overflow|variant|keeps|need|tests|arith|call)(-\d+)?'
SL=re.compile(r'# ([A-Za-z0-9_-]+) \(([A-Za-z0-9_-]+)\): (.*)')
def parse(crate):
    """All slips of a crate: name -> dict(file label, fact, why, pairs [(f,o,n)])"""
    out={}
    for e in sorted(glob.glob(f'{ROOT}/crates/{crate}/must-fail/*.edit')):
        label=os.path.basename(e)[:-5]; text=open(e,encoding='utf-8').read()
        multi=bool(t.slips(text)); f=None; cur=None; head=[]; bare=[]
        if not multi:
            why=[x[2:] for x in text.split('\n') if x.startswith('# ')]
            cur=label; out[cur]=dict(label=label,fact=None,why=' '.join(why),pairs=[],multi=False)
        for l in text.split('\n'):
            m=SL.match(l)
            if multi and m:
                cur=m[1]; assert cur not in out,(crate,cur)
                out[cur]=dict(label=label,fact=m[2],why=m[3],pairs=[],multi=True)
            elif multi and l.startswith('# ') :
                if cur is None: head.append(l)
                elif out[cur]['pairs']==[]: out[cur]['why']+='\n'+l
                else: print('COMMENT?',crate,label,l)
            elif l.startswith('file: '): f=l[6:]
            elif l.startswith('old: '): o=l[5:]
            elif l.startswith('new:'):
                n=l[4:].removeprefix(' ')
                if cur is None: print('BARE PAIR',crate,label,l); continue
                out[cur]['pairs'].append((f,o,n))
    return out
def text_of(pairs):
    r=[];c=None
    for f,o,n in pairs:
        if f!=c: r.append(f'file: {f}'); c=f
        r+=[f'old: {o}',f'new: {n}' if n else 'new:']
    return '\n'.join(r)+'\n'
cache={}
def src(crate,f):
    k=(crate,f)
    if k not in cache: cache[k]=open(f'{ROOT}/crates/{crate}/{f}',encoding='utf-8').read()
    return cache[k]
def place(crate,s): f,o,_=s['pairs'][0]; return (f,src(crate,f).find(o))
def applies(crate,group):
    ts={}
    for s in group:
        for f,o,n in s['pairs']:
            x=ts.get(f,src(crate,f))
            if x.count(o)!=1: return False
            ts[f]=x.replace(o,n)
    return True
def alone(crate,S,names=None):
    out=f'/tmp/h3/alone/{crate}.json'; os.makedirs('/tmp/h3/alone',exist_ok=True)
    res=json.load(open(out)) if os.path.exists(out) else {}
    for n in (names or S):
        key=text_of(S[n]['pairs'])
        if n in res and res[n]['key']==key: continue
        if not os.path.isdir(f'/tmp/h3/inc/{crate}'):
            st,log,took=t.run(crate,None,'pristine'); print(crate,'pristine',st,f'{took:.0f}s',flush=True)
            if st!=0: print(log[-2000:]); raise SystemExit(1)
        st,log,took=t.run(crate,key,'alone_'+n)
        f=t.refused(log)
        res[n]={'key':key,'status':st,'facts':f,'took':took}
        print(crate,n,st,f'{took:.1f}s',{k:[x.split('/',1)[-1] for x in v[:1]] for k,v in f.items()},flush=True)
        if st!=1 or not f: print(log[:600])
        json.dump(res,open(out,'w'))
    return res
