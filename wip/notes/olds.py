import os,re,sys,glob
bad=0
for f in sorted(glob.glob('crates/*/must-fail/*.edit')):
    crate='/'.join(f.split('/')[:2])
    texts={}; cur=None; lines=open(f,encoding='utf-8').read().split('\n')
    i=0; old=None
    def flush(kind,val): pass
    mode=None; buf=[]; blocks=[]
    for l in lines:
        if l.startswith('file: '):
            cur=l[6:].strip(); mode=None
        elif l.startswith('old: ') or l=='old:':
            mode='old'; blocks.append([cur,[l[5:]],None])
        elif l.startswith('new: ') or l=='new:':
            mode='new'; blocks[-1][2]=[l[5:]]
        elif l.startswith('#'):
            mode=None
        elif mode=='old': blocks[-1][1].append(l)
        elif mode=='new': blocks[-1][2].append(l)
    for c,o,n in blocks:
        p=os.path.join(crate,c)
        t=texts.get(p) or open(p,encoding='utf-8').read()
        o='\n'.join(o).rstrip('\n'); n='\n'.join(n).rstrip('\n')
        k=t.count(o)
        if k!=1: bad+=1; print(f,k,repr(o[:80]))
        texts[p]=t.replace(o,n,1)
print(bad,'bad')
