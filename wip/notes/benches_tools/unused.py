import re,sys
for p in sys.argv[1:]:
    s=open(p).read(); lines=s.split('\n'); out=[]; ch=[]
    for i,l in enumerate(lines):
        m=re.match(r'^(ghost )?(pub |unfoldable pub )?use (.*)\.\{(.*)\}(;?)$',l)
        m2=re.match(r'^(ghost )?use (\S+) as (\S+?)(;?)$',l)
        rest='\n'.join(x for j,x in enumerate(lines) if j!=i and not re.match(r'^(ghost )?(pub |unfoldable pub )?use ',x))
        if m and not m.group(2):
            names=[n.strip() for n in m.group(4).split(',')]
            keep=[]
            for n in names:
                core=n
                if re.match(r'^_.*_$',n): core=n.strip('_')
                if n=='[]': core='[]'
                pat=re.escape(core)
                if re.match(r'^[\w\'-]+$',core): pat=r"(?<![\w'·-])"+pat+r"(?![\w'·-])"
                if re.search(pat,rest): keep.append(n)
                else: ch.append(n)
            if keep: out.append(f"{m.group(1) or ''}use {m.group(3)}.{{{', '.join(keep)}}}{m.group(5)}")
        elif m2:
            if re.search(re.escape(m2.group(3))+r'\.',rest): out.append(l)
            else: ch.append(m2.group(3))
        else: out.append(l)
    if ch:
        print(p,ch); open(p,'w').write('\n'.join(out))
