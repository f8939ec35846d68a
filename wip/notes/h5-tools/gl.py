import sys,os,glob
sys.path.insert(0,'/tmp/h5'); import importlib; t=importlib.import_module('try')
for c in sys.argv[1:]:
    for d in sorted(glob.glob(f'/work/gate/target/must-fail/{c}/*/.log')):
        lab=d.split('/')[-2]; log=open(d).read()
        f=t.refused(log)
        e=f'/work/clones/h5/crates/{c}/must-fail/{lab}.edit'
        print('##',c,lab,'slips:',t.slips(open(e).read()) if os.path.exists(e) else 'GONE')
        for k,v in f.items(): print('    ',k,'@',sorted({x.split(f'/{lab}/')[-1].rsplit(':',1)[0] for x in v})[:4])
        b=[x.split(f'/{lab}/')[-1][:150] for x in log.split('\n') if ': error: `' in x and any(w in x for w in t.EMPTY)]
        import re as R
        print('       blocked:', sorted({R.sub(r'.*?([^/]*)/Proof.antt:\d+:\d+: error: .([^`]*).*',r'\1:\2',x) if 'Proof.antt' in x else x[:110] for x in b}))
