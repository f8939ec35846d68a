#!/usr/bin/env python3
"""join.py CRATE NAME SLIP:FACT ...   writes /tmp/h3/joined/CRATE/NAME.edit from the singles
   join.py --install CRATE NAME       copies it to must-fail and removes its singles"""
import sys,os,re,shutil
ROOT='/work/clones/h3'
if sys.argv[1]=='--install':
    crate,name=sys.argv[2:4]
    p=f'/tmp/h3/joined/{crate}/{name}.edit'
    for m in re.finditer(r'^# ([A-Za-z0-9_]+) \(',open(p).read(),re.M):
        f=f'{ROOT}/crates/{crate}/must-fail/{m[1]}.edit'
        if os.path.exists(f): os.remove(f)
        else: print('no single',m[1])
    shutil.copy(p,f'{ROOT}/crates/{crate}/must-fail/{name}.edit'); sys.exit()
crate,name=sys.argv[1:3]
facts=dict(a.split(':') for a in sys.argv[3:])
text={l:open(f'{ROOT}/crates/{crate}/must-fail/{l}.edit',encoding='utf-8').read() for l in facts}
def first(l):
    f=None
    for x in text[l].split('\n'):
        if x.startswith('file: '): f=x[6:]
        if x.startswith('old: '): return f,open(f'{ROOT}/crates/{crate}/{f}').read().find(x[5:])
out=['# Several slips, one check: each is refused at a fact of its own.']; cur=None
for l in sorted(facts,key=first):
    why=next((x[2:] for x in text[l].split('\n') if x.startswith('# ')),'')
    why=re.sub(r'\s*\(proofs/\w+\)$','',why)
    lines=[x for x in text[l].split('\n') if x.strip() and not x.startswith('#')]
    if lines[0]!=cur: out.append(lines[0])
    out.append(f'# {l} ({facts[l]}): {why}')
    out+=lines[1:]
    cur=[x for x in lines if x.startswith('file: ')][-1]
os.makedirs(f'/tmp/h3/joined/{crate}',exist_ok=True)
open(f'/tmp/h3/joined/{crate}/{name}.edit','w').write('\n'.join(out)+'\n')
