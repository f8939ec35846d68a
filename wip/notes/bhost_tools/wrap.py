"""wrap.py MAINDIR IN.ll OUT.ll: adds C wrappers for every exported function of MAINDIR's three C crates."""
import re,sys,glob
main,src,dst=sys.argv[1:]
text=open(src).read()
sizes=dict(Numbers=16,HostPage=48,HostEdited=64,HostAsked=24,HostCompared=48,HostUtf7Cursor=32,HostUtf7Step=72,
  HostJp2Cursor=24,HostJp2Step=64,HostMailboxCursor=32,HostMailboxStep=72,HostBench=40,HostBenches=88,HostBenchesEdited=104)
out=[text]; done=0
for crate in ('qalithonda','qalithonda_compare','qalithonda_benches'):
    for f in sorted(glob.glob(f'{main}/crates/{crate}/src/*.rt')):
        code=re.sub(r'//.*','',open(f).read())
        mod=f.split('/')[-1][:-3]
        for m in re.finditer(r'#\[no_mangle\]\s*pub extern "C" fn (\w+)\(([^)]*)\)\s*->\s*(\w+)',code):
            name,params,ret=m.groups()
            inner=f'{crate}::{name}' if mod=='lib' else f'{crate}::{mod}::{name}'
            if f'@"{inner}"(' not in text: print('missing',inner,file=sys.stderr); continue
            decl,body,args=[],[],[]
            n=sizes[ret]
            for i,p in enumerate(q for q in params.split(',') if q.strip()):
                ty=p.split(':',1)[1].strip()
                if re.match(r'&(mut )?\[u\d+\]$',ty):
                    decl+= [f'ptr %p{i}',f'i64 %n{i}']
                    body.append(f'  %f{i}=alloca [16 x i8],align 8\n  store ptr %p{i}, ptr %f{i}\n  %g{i}=getelementptr i8, ptr %f{i}, i64 8\n  store i64 %n{i}, ptr %g{i}')
                    args.append(f'ptr %f{i}')
                elif ty.startswith('&'):
                    decl.append(f'ptr %p{i}'); args.append(f'ptr %p{i}')
                elif ty in ('u32','usize'):
                    w={'u32':'i32','usize':'i64'}[ty]
                    decl.append(f'{w} %p{i}'); args.append(f'{w} %p{i}')
                else:
                    decl.append(f'ptr byval([{sizes[ty]} x i8]) align 8 %p{i}'); args.append(f'ptr %p{i}')
            if n>16:
                decl.insert(0,f'ptr sret([{n} x i8]) align 8 %r')
                out.append(f'define void @{name}('+', '.join(decl)+') #0 {\nstart:\n'+'\n'.join(body)+f'\n  call void @"{inner}"('+', '.join(['ptr %r']+args)+')\n  ret void\n}\n')
            else:
                out.append(f'define {{i64,i64}} @{name}('+', '.join(decl)+') #0 {\nstart:\n'+'\n'.join(body)+f'\n  %r=alloca [16 x i8],align 8\n  call void @"{inner}"('+', '.join(['ptr %r']+args)+''')
  %a=load i32,ptr %r
  %b=zext i32 %a to i64
  %rp=getelementptr i8,ptr %r,i64 8
  %d=load i64,ptr %rp
  %x=insertvalue {i64,i64} undef,i64 %b,0
  %y=insertvalue {i64,i64} %x,i64 %d,1
  ret {i64,i64} %y
}
''')
            done+=1
open(dst,'w').write('\n'.join(out)); print(done,'functions',file=sys.stderr)
