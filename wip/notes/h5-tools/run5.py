import sys, os, json, time
from concurrent.futures import ThreadPoolExecutor
sys.path.insert(0,'/tmp/h5'); import lib; from lib import t
# tasks: CRATE/FILE (joined file) or CRATE:SLIP (alone)
def one(task):
    if ':' in task:
        c,n=task.split(':'); S=lib.parse(c); text=lib.text_of(S[n]['pairs']); lab='alone_'+n
    else:
        c,f=task.split('/'); text=open(f'{lib.ROOT}/crates/{c}/must-fail/{f}.edit',encoding='utf-8').read(); lab=f
    st,log,took=t.run(c,text,lab); f=t.refused(log)
    sl=t.slips(text); miss=[s for s in sl if s[1] not in f]
    r=[f'== {task}: status {st} {took:.1f}s '+('MISSING '+str(miss) if miss else 'all there' if sl else '')]
    if st!=1 or not f: r.append(log[:1500])
    for k,v in f.items(): r.append('     '+k+' @ '+', '.join(sorted({x.split(lab+'/')[-1].rsplit(':',1)[0] for x in v})[:4]))
    b=sorted({x.split(lab+'/')[-1].split(': error: `')[0].rsplit(':',2)[0].replace('/Proof.antt','')+':'+x.split(': error: `')[1].split('`')[0] for x in log.split('\n') if ': error: `' in x and any(w in x for w in t.EMPTY)})
    r.append('     blocked: '+' '.join(b))
    s='\n'.join(r); print(s,flush=True)
    os.makedirs('/tmp/h5/res',exist_ok=True)
    json.dump({'task':task,'status':st,'took':took,'facts':{k:sorted({x.split(lab+"/")[-1] for x in v}) for k,v in f.items()},'missing':miss},open('/tmp/h5/res/'+task.replace('/','__').replace(':','--')+'.json','w'))
with ThreadPoolExecutor(2) as ex: list(ex.map(one,sys.argv[1:]))
print('done',time.strftime('%H:%M:%S'))
