import sys,re
bench,stack,commit=open(sys.argv[1]).read(),open(sys.argv[2]).read(),sys.argv[3]
# RESULTS
i=bench.index('- date:')
res='# Results\n\nThe whole output of `target/bench/bench --markdown` and of `target/bench/stack` at %s.\n\n'%commit+bench[i:].rstrip('\n')+'\n\n### The stack of each call\n\n'+''.join('    '+l+'\n' if l.strip() else '\n' for l in stack.rstrip('\n').split('\n'))
open('bench/RESULTS.md','w').write(res)
def rows(title):
    a=bench.index('### '+title+'\n'); b=bench.find('\n### ',a+4); 
    return [l for l in bench[a:b if b>0 else None].split('\n') if l.startswith('|')]
s=open('README.md').read()
def put(first_line_prefix, new):
    global s
    L=s.split('\n')
    k=next(i for i,l in enumerate(L) if l.startswith(first_line_prefix))
    e=k
    while L[e].startswith('|'): e+=1
    L[k:e]=new
    s='\n'.join(L)
date=re.search(r'- date: (.*)',bench)[1]; kernel=re.search(r'- kernel: (.*)',bench)[1]; proc=re.search(r'- processor: (.*)',bench)[1]
s=re.sub(r'Measured on .* by\n',f'Measured on {date}, {proc}, {kernel}, glibc {re.search(r"- glibc: (.*)",bench)[1]}, ICU {re.search(r"- ICU: (.*)",bench)[1]}, by\n',s,1)
put('| call | corpus | 200 ',rows('Ours against the fastest peer, by size'))
page=rows('The page')
put('| kind | history | call | ours µs | plain pass',page[:2]+[l for l in page if l.startswith('| UTF-7 body')])
size=rows('The page, by size')
d={}
for l in size[2:]:
    c=[x.strip() for x in l.strip('|').split('|')]
    if c[0]=='UTF-7 body': d[(c[1],c[2])]=c[4]
put('| UTF-7 body | 64K',['| UTF-7 body | 64K | 256K | 1M |','|---|---:|---:|---:|']+['| %s | %s | %s | %s |'%(c,d[(c,'64K')],d[(c,'256K')],d[(c,'1M')]) for c in ('open','replace','undo','redo','save')])
put('| kind | one undo',rows('Squeezing'))
put('| kind | call | bytes of file',rows('Page files'))
# new tables
b=rows('Both benches, against a single page')
sel=[l for l in b[2:] if l.startswith('| UTF-7 body') and ('100000 steps' in l or 'open' in l)]
t1=['Both benches, a call of bench 0 against the same call of a single page with as many cells and steps (1,048,576 and 100,000; wanted: at most twice the time, so 0.5 or more):','']+b[:2]+sel+['']
u=rows('Subject lines')
t2=['Subject lines, 512 of them, each a call of its own, against our own UTF-7 on the same units (wanted in writing: 0.25 or more) and against Python\'s email.header:','']+u+['']
a=s.index('No call takes more than 64 KiB of stack')
k=s.find('Both benches, a call of bench 0')
if k>0: s=s[:k]+s[a:]; a=s.index('No call takes more than 64 KiB of stack')
s=s[:a]+'\n'.join(t1)+'\n'+'\n'.join(t2)+'\n'+s[a:]
open('README.md','w').write(s)
cmp=rows('Comparing equal texts, against reading both')[2:]
v={}
for l in cmp:
    c=[x.strip() for x in l.strip('|').split('|')]; v.setdefault(c[2],[]).append((float(c[5].split()[0]),c[0],c[1]))
for k,x in v.items(): print(k,min(x),max(x))
print(re.findall(r'\|.*\|',stack)[-3:])
