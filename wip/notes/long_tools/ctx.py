import sys,re
fn=sys.argv[1]
root="/work/clones/long/target/goals/utf7_whole/Rattle·utf7_whole·proofs/proofs/"
s=open(root+fn+"/Lts.antt").read()
# records of contexts
recs={}
for m in re.finditer(r'pub record (\S+)(.*?) where\n(.*?)(?=\n\s*\n)',s,re.S):
    body=m.group(3)
    b=re.search(r'before : (\S+)',body)
    f=[x for x in re.findall(r'pub (\S+) :',body) if x!='before']
    recs[m.group(1)]=(b.group(1) if b else None,f)
def chain(n):
    out=[]
    while n in recs:
        out.append(n+'{'+','.join(recs[n][1])+'}'); n=recs[n][0]
        if n is None: break
    return ' < '.join(out)
needs=[]
for m in re.finditer(r'abbrev pub (Need-\S+) : .*?\n\s*\1 =\s*\(c : (\S+)\)',s):
    needs.append((m.group(1),m.group(2)))
ctxs={}
for n,c in needs: print(n,'::',c)
print()
seen=set()
for n,c in needs:
    if c not in seen:
        seen.add(c); print(chain(c)[:900])
