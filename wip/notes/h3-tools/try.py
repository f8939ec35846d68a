#!/usr/bin/env python3
"""try.py CRATE EDITFILE...  : applies each edit file (path) to a copy, checks it incrementally, prints facts."""
import sys, os, re, shutil, subprocess, time
ROOT='/work/clones/h3'
OWN=os.environ.get('OWN')
def deps(name):
    for l in open(ROOT+'/crates.txt'):
        l=l.split('#')[0]
        if ':' in l:
            n,d=l.split(':',1)
            if n.strip()==name: return d.split()
    raise SystemExit('no crate')
def apply(where, text):
    f=None; old=None; n=0
    for line in text.split('\n'):
        if line.startswith('file: '): f=line[6:]
        elif line.startswith('old: '): old=line[5:]
        elif line.startswith('new:'):
            new=line[4:]
            if new.startswith(' '): new=new[1:]
            p=os.path.join(where,f)
            t=open(p,encoding='utf-8').read()
            c=t.count(old)
            if c!=1: return f'BAD: {c} times in {f}: {old}'
            open(p,'w',encoding='utf-8').write(t.replace(old,new)); n+=1
    return None if n else 'BAD: no pair'
EMPTY=["was not admitted","that can be named from here"]
def fn_at(place):
    parts=place.rsplit(':',2)
    try: ls=open(parts[0]).read().split('\n'); at=int(parts[1])
    except Exception: return None
    for line in reversed(ls[:at]):
        if 'fn ' in line: return line.split('fn ',1)[1].split('(')[0]
    return None
def refused(log):
    found={}
    for t in log.split('\n'):
        if ': error: `' in t:
            if any(w in t for w in EMPTY): continue
            place,fact=t.split(': error: `',1)
            fact=fact.split('`')[0]
            short=place.split('/w/')[-1]
            found.setdefault(fact,[]).append(short)
            if '/Proof.antt:' in place:
                found.setdefault(place.split('/Proof.antt:')[0].split('/')[-1],[]).append(short)
        elif ': it is not proved that' in t:
            p=t.split(': it is not proved that')[0]
            if p.startswith('note: '): p=p[6:]
            f=fn_at(p)
            if f: found.setdefault(f,[]).append('fn')
    return found
def slips(text):
    r=[]
    for l in text.split('\n'):
        m=re.match(r'# ([A-Za-z0-9_-]+) \(([A-Za-z0-9_-]+)\): ',l)
        if m: r.append((m[1],m[2]))
    return r
def run(crate, text, label, inc=True):
    where=f'/tmp/h3/w/{crate}'
    shutil.rmtree(where,ignore_errors=True); os.makedirs(where)
    for part in ('src','specs','proofs'):
        if os.path.isdir(f'{ROOT}/crates/{crate}/{part}'): shutil.copytree(f'{ROOT}/crates/{crate}/{part}',f'{where}/{part}')
    if text is not None:
        bad=apply(where,text)
        if bad: return bad,'',0
    own=OWN; 
    root=where+'/src/main.rt'
    if not os.path.exists(root): root=where+'/src/lib.rt'
    words=['--crate-name',crate,root,'--extern',f'std={own}/rlib/std.rlib']
    for d in deps(crate):
        if os.path.isdir(f'{ROOT}/crates/{d}/src'): words+=['--extern',f'{d}={ROOT}/target/rlib/{d}.rlib']
        else: words+=['--extern',f'{d}={own}/rlib/{d}.rlib']
    words+=['-L',f'dependency={ROOT}/target/rlib','-L',f'dependency={own}/rlib','--antt-project',os.environ['PROJECT'],'--logic-built',own+'/logic-built']
    if inc:
        os.makedirs(f'/tmp/h3/inc/{crate}',exist_ok=True)
        words+=['--incremental',f'/tmp/h3/inc/{crate}']
    t=time.time()
    p=subprocess.run(['nice','-n','5',os.environ['RATTLE'],'check']+words,stdout=subprocess.PIPE,stderr=subprocess.STDOUT,text=True)
    took=time.time()-t
    os.makedirs(f'/tmp/h3/log/{crate}',exist_ok=True)
    open(f'/tmp/h3/log/{crate}/{label}.log','w').write(p.stdout)
    return p.returncode,p.stdout,took
if __name__=='__main__':
    crate=sys.argv[1]
    if len(sys.argv)==2:
        st,log,took=run(crate,None,'pristine'); print(st,f'{took:.1f}s',log[-300:])
    for e in sys.argv[2:]:
        text=open(e,encoding='utf-8').read()
        label=os.path.basename(e)[:-5]
        st,log,took=run(crate,text,label)
        f=refused(log)
        print(f'== {crate}/{label}: status {st} {took:.1f}s'); 
        if st!=1 or not f: print(log[:1500] or st)
        for k,v in sorted(f.items(), key=lambda kv: kv[1][0]): print('   ',k,' @ ',', '.join(v[:3]), '...' if len(v)>3 else '')
        missing=[s for s in slips(text) if s[1] not in f]
        if slips(text): print('   MISSING' if missing else '   all there', missing)
        sys.stdout.flush()
