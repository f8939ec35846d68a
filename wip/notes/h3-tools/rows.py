import sys,re,glob,importlib
sys.path.insert(0,'/tmp/h3'); t=importlib.import_module('try')
crate=sys.argv[1]
doc=open(t.ROOT+'/docs/PROMISES.md').read().split('\n')
for e in sorted(glob.glob(f'{t.ROOT}/crates/{crate}/must-fail/definitions*.edit')):
    for n,f in t.slips(open(e).read()):
        for i,l in enumerate(doc,1):
            for m in re.finditer(rf'(?<![\w]){crate}/{n}(?![\w])',l):
                tail=l[m.start():m.start()+170].split(' |')[0]
                # covering parenthesis
                p=re.match(r'[^;()]*\(([^)]*)\)',tail)
                cov=p[1] if p else ''
                mark='' if not cov or re.search(rf'(?<![\w-]){re.escape(f)}(?![\w-])',cov) else '   <<<<'
                print(f'{i}: {n} [{f}] :: {tail[:110]}{mark}')
