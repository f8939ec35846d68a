#!/usr/bin/env python3
"""auto3.py CRATE [--dry] [--no-seed] [--base NAME]: regroup slips so that few files are needed."""
import sys, os, re, random, json
sys.path.insert(0,'/tmp/h3'); import lib; from lib import t
crate=sys.argv[1]; dry='--dry' in sys.argv; seedless='--no-seed' in sys.argv
ONLY=set(sys.argv[sys.argv.index('--seeds')+1].split(',')) if '--seeds' in sys.argv else None
base=sys.argv[sys.argv.index('--base')+1] if '--base' in sys.argv else None
keep=set(sys.argv[sys.argv.index('--keep')+1].split(',')) if '--keep' in sys.argv else set()
S=lib.parse(crate); res=lib.alone(crate,S)
S={n:s for n,s in S.items() if s['label'] not in keep and n not in keep}
doc=open(f'{lib.ROOT}/docs/PROMISES.md').read()
def named(l):
    m=re.search(re.escape(f'{crate}/{l}')+r'(?![\w])\s*\(([^)]*)\)',doc)
    return re.findall(r'[A-Za-z_][A-Za-z0-9_-]*',m[1]) if m else []
ALL={n:set(res[n]['facts']) for n in S}
NEEDS=os.environ.get('NEEDS','1')=='1'
isneed=lambda f: re.fullmatch(lib.NEED,f)
U={n:{f for f in ALL[n] if NEEDS or not isneed(f)} for n in S}
def blocked(n):
    b=set(); p=f'/tmp/h3/log/{crate}/alone_{n}.log'
    for x in open(p):
        if ': error: `' in x and any(w in x for w in t.EMPTY):
            pl,f=x.split(': error: `',1); b.add(f.split('`')[0])
            if '/Proof.antt:' in pl: b.add(pl.split('/Proof.antt:')[0].split('/')[-1])
    return b-ALL[n]
B={n:(blocked(n) if os.environ.get('BLOCK','1')=='1' else set()) for n in S}
def own(g):
    r={}
    for l in g:
        o=U[l]-set().union(*([ALL[m]|B[m] for m in g if m!=l] or [set()]))
        o={f for f in o if re.fullmatch(r'[A-Za-z0-9_-]+',f)}
        if not o: return None
        r[l]=o
    return r
order=lambda g: sorted(g,key=lambda n: lib.place(crate,S[n]))
applies=lambda g: lib.applies(crate,[S[n] for n in order(g)])
seeds={}
if not seedless:
    for n,s in S.items():
        if s['multi'] and (ONLY is None or s['label'] in ONLY): seeds.setdefault(s['label'],[]).append(n)
seedg=[]
for lab,g in seeds.items():
    o=own(g)
    if not o: print('SEED NOT OWN',lab,{l:sorted(ALL[l]) for l in g if not (U[l]-set().union(*([ALL[m] for m in g if m!=l] or [set()])))})
    elif not applies(g): print('SEED order differs',lab)
    seedg.append(list(g))
single=[n for n in S if seedless or not S[n]['multi'] or (ONLY is not None and S[n]['label'] not in ONLY)]
bad=set(tuple(x) for x in json.load(open(f'/tmp/h3/bad_{crate}.json'))) if os.path.exists(f'/tmp/h3/bad_{crate}.json') else set()
hidden=[]   # (slip, frozenset group): slip not shown there
def okhid(g):
    sg=set(g)
    return not any(l in sg and h<=sg for l,h in hidden)
def tryfit(pool,gs,shuffle):
    gs=[list(g) for g in gs]
    for l in pool:
        idx=list(range(len(gs)))
        if shuffle: random.shuffle(idx)
        for i in idx:
            g=gs[i]+[l]
            if own(g) and applies(g) and okhid(g): gs[i].append(l); break
        else: gs.append([l])
    return gs
random.seed(1)
def best():
    b=None
    pool=sorted(single,key=lambda l:(len(U[l]),l))
    for k in range(int(os.environ.get('TRIES','300'))):
        gs=tryfit(pool,seedg,k>0)
        if b is None or len(gs)<len(b): b=gs
        pool=single[:]; random.shuffle(pool)
    return b
def head(): return '# Several slips, one check: each is refused at a fact of its own.'
def body(g,facts=None):
    out=[head()]; cur=None
    for l in order(g):
        s=S[l]; why=s['why']
        if not s['multi']: why=re.sub(r'\s*\(proofs/\w+\)$','',why)
        f0=s['pairs'][0][0]
        if f0!=cur: out.append(f'file: {f0}'); cur=f0
        out.append(f'# {l} ({facts[l] if facts else "x"}): {why}')
        for f,o,n in s['pairs']:
            if f!=cur: out.append(f'file: {f}'); cur=f
            out+=[f'old: {o}',f'new: {n}' if n else 'new:']
    return '\n'.join(out)+'\n'
done={}
for rnd in range(int(os.environ.get('ROUNDS','8'))):
    gs=best(); print('round',rnd,'groups',len(gs),[len(g) for g in gs],flush=True)
    if dry:
        for g in gs: print('  ',{l:sorted(o) for l,o in (own(g) or {}).items()})
        sys.exit()
    allok=True
    for i,g in enumerate(gs):
        k=frozenset(g)
        if k in done or len(g)<=1: continue
        if sorted(g) in [sorted(x) for x in seedg]: continue
        st,log,took=t.run(crate,body(g),f'join{i}'); f=t.refused(log); o=own(g)
        if st!=1 or not f: print('STATUS',st,log[:1500]); sys.exit(1)
        hid=[l for l in g if not o or not (o[l]&set(f))] if o else []
        print(f'  run {i} of {len(g)}: {took:.1f}s hidden {hid}',flush=True)
        if hid:
            allok=False
            for l in hid: hidden.append((l,k))
            # learn: test hidden with the rest: ask pairwise by bisect
            for l in (hid if os.environ.get('BISECT') else []):
                rest=[x for x in g if x!=l]
                while len(rest)>1:
                    half=rest[:len(rest)//2]
                    st,log,took=t.run(crate,body([l]+half),'bisect'); ff=set(t.refused(log))
                    if not (own([l]+half)[l]&ff): rest=half
                    else:
                        other=rest[len(rest)//2:]
                        st,log,took=t.run(crate,body([l]+other),'bisect'); ff=set(t.refused(log))
                        if not (own([l]+other)[l]&ff): rest=other
                        else: break
                print('    ',l,'hidden by',rest,flush=True)
                hidden.append((l,frozenset(rest+[l])))
        else: done[k]={l:o[l]&set(f) for l in g}
    if allok: break
print('final',[len(g) for g in gs])
# names
used=set(); plan=[]
for g in gs:
    labs=[S[l]['label'] for l in g if S[l]['multi'] and (ONLY is None or S[l]['label'] in ONLY)]
    plan.append((g,labs[0] if labs and not seedless else None))
b=base or ('definitions' if any('/specs/' in '/'+S[l]['pairs'][0][0] for l in single) else 'slips')
NAMES=lambda b:[b,b+'_more']+[f'{b}_{w}' for w in ('third','fourth','fifth','sixth','seventh','eighth')]
taken={x for _,x in plan if x}|{S[g[0]]['label'] for g,x in plan if len(g)==1}|keep
free=[n for n in NAMES(b) if n not in taken]
old=set(S[n]['label'] for n in S)
write={}
for g,lab in plan:
    if len(g)==1 and not S[g[0]]['multi']: print('alone:',g[0],sorted(ALL[g[0]])); continue
    if lab is None: lab=free.pop(0)
    k=frozenset(g)
    if k not in done:
        print('as it was:',lab) ; 
        if sorted(g)!=sorted(n for n in S if S[n]['label']==lab): print('NOT VERIFIED',g); sys.exit(1)
        write[lab]=None; continue
    facts={}
    for l in g:
        c=done[k][l]
        pref=[S[l]['fact']] if S[l]['fact'] in c else []
        nm=[n for n in named(l) if n in c and (not isneed(n) or all(isneed(x) for x in c))]
        facts[l]=(pref or nm or sorted(c,key=lambda x:(bool(isneed(x)),x=='hold',x)))[0]
        if named(l) and not nm: print(f'ROW {crate}/{l}: doc {named(l)} -> {facts[l]} (own and shown: {sorted(c)})')
    write[lab]=body(g,facts); print(lab,len(g),facts)
single_left={S[g[0]]['label'] for g,x in plan if len(g)==1 and not S[g[0]]['multi']}
for lab in old:
    if lab not in single_left and lab not in write: os.remove(f'{lib.ROOT}/crates/{crate}/must-fail/{lab}.edit')
for lab,x in write.items():
    if x is not None: open(f'{lib.ROOT}/crates/{crate}/must-fail/{lab}.edit','w',encoding='utf-8').write(x)
print(crate,'had',len(old)+len(keep),'has',len(os.listdir(f'{lib.ROOT}/crates/{crate}/must-fail')))
