import sys,re
src=open(sys.argv[1]).read()
out=[src]
def have(n): return f'@"{n}"(' in src
def fat(i): return f'''  %f{i}=alloca [16 x i8],align 8
  store ptr %p{i}, ptr %f{i}
  %g{i}=getelementptr i8, ptr %f{i}, i64 8
  store i64 %n{i}, ptr %g{i}
'''
def rw(c,inner):
    if not have(inner): print('missing',inner,file=sys.stderr); return
    out.append(f'''define {{i64,i64}} @{c}(ptr %p1,i64 %n1,ptr %p2,i64 %n2) #0 {{
start:
{fat(1)}{fat(2)}  %r=alloca [16 x i8],align 8
  call void @"{inner}"(ptr %r,ptr %f1,ptr %f2)
  %a=load i32,ptr %r
  %b=zext i32 %a to i64
  %rp=getelementptr i8,ptr %r,i64 8
  %d=load i64,ptr %rp
  %x=insertvalue {{i64,i64}} undef,i64 %b,0
  %y=insertvalue {{i64,i64}} %x,i64 %d,1
  ret {{i64,i64}} %y
}}
''')
for n in ['utf7_read','utf7_header_write','utf7_body_write','mailbox_read','mailbox_write','jp2_read','jp2_write']:
    rw('qalithonda_'+n,'qalithonda::qalithonda_'+n)
def ra(c,inner):
    if not have(inner): print('missing',inner,file=sys.stderr); return
    out.append(f'''define i32 @{c}(ptr %p1,i64 %n1,ptr %p2,i64 %n2) #0 {{
start:
{fat(1)}{fat(2)}
  %r=call i8 @"{inner}"(ptr %f1,ptr %f2)
  %z=zext i8 %r to i32
  ret i32 %z
}}
''')
ra('p_utf7_reads_as','utf7_whole::reads_as'); ra('p_jp2_reads_as','jp2_whole::reads_as'); ra('p_mailbox_reads_as','mailbox_read::reads_as')
open(sys.argv[2],'w').write('\n'.join(out))
