#!/usr/bin/env python3
# paths.py CRATE FN [show | gen TEMPLATE]
import re,sys,os
root='/work/clones/benches'
crate,fn=sys.argv[1],sys.argv[2]
g=f'{root}/target/goals/{crate}/Rattle·{crate}·proofs/proofs/{fn}'
src=open(g+'/Lts.antt').read().split('\n')
recs={}; needs={}
i=0
cur=None
for i,l in enumerate(src):
    m=re.match(r'^ +pub record (\S+) : Type 0 where',l)
    if m:
        cur=m.group(1); recs[cur]=[]; ind=len(l)-len(l.lstrip()); continue
    if cur:
        if l.strip()=='' : continue
        k=len(l)-len(l.lstrip())
        m=re.match(r'^ +pub (\S+) :\s*(.*)$',l)
        if k<=ind: cur=None
        elif m and k==ind+2: recs[cur].append((m.group(1),m.group(2).strip()))
    m=re.match(r'^ +(Need-\S+) =( .*)?$',l)
    if m:
        n=m.group(1)
        m2=re.search(r'\(c : (\S+?)\)',' '.join(src[i:i+4]))
        if m2: needs[n[5:]]=m2.group(1)
def chain(need):
    r=needs[need]; d=0; out={}; order=[]
    while r in recs:
        f=dict(recs[r])
        for k,t in recs[r]:
            if k!='before':
                if k not in out: out[k]='c'+' .before'*d+' .'+k; order.append((k,r,d))
        if 'before' not in f: break
        r=f['before'].split()[0]; d+=1
    return out,order
if len(sys.argv)<4 or sys.argv[3]=='show':
    for n in needs:
        o,order=chain(n)
        print(n,':',' '.join(f'{k}({r})' for k,r,d in order))
else:
    prooff=f'{g}/Proof.antt'
    bare=not os.path.exists(prooff)
    sk=open(prooff).read() if not bare else ''
    loop='InvT-loop' in '\n'.join(src)
    t=open(sys.argv[4]).read()
    # template: header lines, then blocks  "need: body" separated by '%%'
    parts=t.split('%%')
    head=parts[0].strip('\n')
    bodies={}
    for p in parts[1:]:
        name,body=p.split('\n',1)
        for nm in name.split():
            bodies[nm]=body.rstrip('\n')
    # skeleton entries
    res=[]
    if head: res.append(head)
    res.append('use borrow.Author.Needs.{needs}')
    res.append(f'use Rattle·{crate}·proofs.proofs.{fn.replace("/",".")}.Statement.{{statement}}')
    res.append(f'use Rattle·{crate}·proofs.proofs.{fn.replace("/",".")}.Tie as tie')
    res.append('')
    if bare or loop:
        names=re.findall(r'^ +abbrev pub Need-(\S+) :','\n'.join(src),re.M)
        args=' Inv-loop μ-loop' if loop else ''
        if loop: res.append('abbrev Inv-loop : tie.InvT-loop\n'+bodies['Inv-loop'].strip('\n')+'\n')
        if loop: res.append('abbrev μ-loop : tie.MeasureT-loop\n'+bodies['μ-loop'].strip('\n')+'\n')
        for n in names:
            lhs='c κs' if re.search(r'-requires(-[0-9]+)?$',n) else 'c'
            b=bodies.get(n,'search needs')
            o,_=chain(n) if n in needs else ({},None)
            def rep(mm):
                k=mm.group(1)
                if k not in o: raise SystemExit(f'{n}: no {k}; has {list(o)}')
                return o[k]
            b=re.sub(r'@([A-Za-z0-9·«»-]+)',rep,b)
            res.append(f'{n} : tie.Need-{n}{args}')
            b='\n'.join(('    '+x if x.strip() else x) for x in b.split('\n'))
            if '\n' in b: res.append(f'{n} {lhs} =\n{b}')
            else: res.append(f'{n} {lhs} = {b.strip()}')
            res.append('')
        nm=fn.split('/')[-1].replace('_','-')
        res.append(f'pub {nm}-spec : {{M : Type 1}} → statement M\n{nm}-spec =\n    tie.close\n    (tie.spec\n    '+('Inv-loop\n    μ-loop\n    ' if loop else '')+'\n    '.join(names)+')')
        out=f'{root}/crates/{crate}/proofs/{fn}/Proof.antt'
        os.makedirs(os.path.dirname(out),exist_ok=True)
        open(out,'w').write('\n'.join(res)+'\n')
        print('wrote',out); sys.exit()
    lines=sk.split('\n')
    j=0
    names=[]
    for l in lines:
        m=re.match(r'^(\S+) : tie\.Need-(\S+)$',l)
        if m: names.append(m.group(1))
    for n in names:
        m=re.search(rf'^{re.escape(n)} (c.*?) = ',sk,re.M)
        if not m: m=re.search(rf'^{re.escape(n)} (.*?) =',sk,re.M)
        lhs=m.group(1) if m else 'c'
        if n in bodies:
            b=bodies[n]
            o,_=chain(n) if n in needs else ({},None)
            def rep(mm):
                k=mm.group(1)
                if k not in o: raise SystemExit(f'{n}: no {k}; has {list(o)}')
                return o[k]
            b=re.sub(r'@([A-Za-z0-9·«»-]+)',rep,b)
            res.append(f'{n} : tie.Need-{n}')
            if b.startswith('unfolding'):
                u,b=b.split('\n',1); res.append(u)
            b='\n'.join(('    '+x if x.strip() else x) for x in b.split('\n'))
            if '\n' in b: res.append(f'{n} {lhs} =\n{b}')
            else: res.append(f'{n} {lhs} = {b.strip()}')
        else:
            m=re.search(rf'^{re.escape(n)} : tie.*?\n(.*?)\n\n',sk,re.S|re.M)
            res.append(f'{n} : tie.Need-{n}\n{m.group(1)}')
        res.append('')
    m=re.search(r'^(-- antt refused.*\n)?(pub \S+-spec : .*)',sk,re.S|re.M)
    res.append(m.group(2).rstrip('\n'))
    out=f'{root}/crates/{crate}/proofs/{fn}/Proof.antt'
    os.makedirs(os.path.dirname(out),exist_ok=True)
    open(out,'w').write('\n'.join(res)+'\n')
    print('wrote',out)
