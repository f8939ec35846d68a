import sys,re,glob; sys.path.insert(0,'/tmp/h3'); import importlib; t=importlib.import_module('try')
doc=open(t.ROOT+'/docs/PROMISES.md').read().split('\n')
for crate in sys.argv[1:]:
  for e in sorted(glob.glob(f'{t.ROOT}/crates/{crate}/must-fail/*.edit')):
    for n,f in t.slips(open(e).read()):
        for i,l in enumerate(doc,1):
            for m in re.finditer(rf'(?<![\w]){crate}/{n}(?![\w])',l):
                tail=l[m.start():m.start()+260].split(' |')[0]
                p=re.match(r'[^;()]*\(([^)]*)\)',tail); cov=p[1] if p else ''
                if cov and not re.search(rf'(?<![\w-]){re.escape(f)}(?![\w-])',cov): print(f'{i}: {crate}/{n} [{f}] :: {tail[:190]}')
