import re,sys
bench=open(sys.argv[1]).read()
def rows(title):
    a=bench.index('### '+title+'\n'); b=bench.find('\n### ',a+4)
    return [l for l in bench[a:b if b>0 else None].split('\n') if l.startswith('|')]
b=rows('Both benches, against a single page')
sel=[l for l in b[2:] if '100000 steps' in l or 'open' in l]
text='''bench, "Both benches": a call of bench 0 against the same call of a single page with as many cells (1,048,576) and steps. One bench: it has all of them, and the other an empty letter; in turn: each has half. Wanted: at most twice the page's time, so a ratio of 0.5 or more; the least is LEAST. With no step or one, replace, undo and redo take what the page's take.

'''+'\n'.join(b[:2]+sel)+'\n\nA walk that knows where a record begins only when the one before it is read took 4.5 times the page\'s time (545 µs); records of one shape are therefore passed in an inner loop, as the page\'s are. A call takes at most 54,901 bytes of stack (open; 1,705 the others but save, 6,440).\n'
least=min(float(l.split('|')[6].split()[0]) for l in b[2:])
text=text.replace('LEAST','%.2f'%least)
p='docs/changes/13-master-and-apprentice.md'; s=open(p).read()
a=s.index('## Speed\n'); e=s.index('## Check times')
s=s[:a]+'## Speed\n\n'+text+'\n'+s[e:]
open(p,'w').write(s)
u=[[x.strip() for x in l.strip('|').split('|')] for l in rows('Subject lines')[2:]]
d={(r[0].split('-')[1],r[1].split('_')[1]):r for r in u}
p='docs/changes/14-subject-lines.md'; s=open(p).read()
a=s.index('bench, "Subject lines"'); e=s.index('Writing was 0.62')
t='bench, "Subject lines" (512 lines a corpus, each a call of its own; the gate\'s archive on an idle machine):\n\n| corpus | writing, µs a line | of our own UTF-7 writer (wanted: 0.25) | times Python | reading, µs a line | of our own UTF-7 reader | times Python |\n|---|---:|---:|---:|---:|---:|---:|\n'
for n,k in (('ASCII','ascii'),('Japanese','japanese'),('Western','western')):
    w,r=d[(k,'write')],d[(k,'read')]
    t+='| %s | %s | %s | %.0f | %s | %s | %.0f |\n'%(n,w[3],w[5].split()[0],float(w[7]),r[3],r[5].split()[0],float(r[7]))
s=s[:a]+t+'\n'+s[e:]
open(p,'w').write(s)
