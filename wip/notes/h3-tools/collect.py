#!/usr/bin/env python3
import sys, os, json, glob
sys.path.insert(0,'/tmp/h3')
import importlib; t=importlib.import_module('try')
for crate in sys.argv[1:]:
    out=f'/tmp/h3/alone/{crate}.json'; os.makedirs('/tmp/h3/alone',exist_ok=True)
    res=json.load(open(out)) if os.path.exists(out) else {}
    if not res or not os.path.isdir(f'/tmp/h3/inc/{crate}'):
        st,log,took=t.run(crate,None,'pristine'); print(crate,'pristine',st,f'{took:.0f}s',flush=True)
        if st!=0: print(log[-2000:]); continue
    for e in sorted(glob.glob(f'{t.ROOT}/crates/{crate}/must-fail/*.edit')):
        label=os.path.basename(e)[:-5]
        if label in res: continue
        text=open(e,encoding='utf-8').read()
        if t.slips(text): continue
        st,log,took=t.run(crate,text,label)
        f=t.refused(log)
        res[label]={'status':st,'facts':f,'took':took}
        print(crate,label,st,f'{took:.1f}s',{k:[x.split('/',1)[-1] for x in v[:2]] for k,v in f.items()},flush=True)
        json.dump(res,open(out,'w'))
