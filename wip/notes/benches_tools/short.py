#!/usr/bin/env python3
# short.py FILE..: bind the paths into c of each answer by lets, so that lines stay short
import re,sys
for path in sys.argv[1:]:
    s=open(path).read()
    blocks=re.split(r'\n\n',s)
    out=[]
    for b in blocks:
        m=re.match(r'^((?:-- .*\n)?)(\S+) : tie\.Need-(.*)\n(\S+ c(?: κs)?) =(.*)$',b,re.S)
        if not m or max((len(l) for l in b.split('\n')),default=0)<=120:
            out.append(b); continue
        pre,name,need,lhs,body=m.groups()
        body=body.strip('\n')
        # dedent
        ls=[l for l in body.split('\n')]
        if ls and ls[0].strip()=='' : ls=ls[1:]
        ls=[l[4:] if l.startswith('    ') else l.strip() for l in ls]
        body='\n'.join(ls)
        # remove simple lets  let a = c .. .args in
        pats=sorted(set(re.findall(r'c((?: \.before)+) \.([A-Za-z0-9«»-]+)',body)),key=lambda x:-len(x[0]))
        short={}
        used=set(re.findall(r'\blet (\S+)',body))
        lets=[]
        depths=sorted(set(p[0].count('.before') for p in pats))
        # base names
        base={}
        prev=0; prevname='c'
        for d in depths:
            if d>8 and d-prev>0:
                nm=f'c{d}'
                # chain by at most 8 from prevname
                cur=prev; curname=prevname
                while d-cur>10:
                    nn=f'c{cur+10}'
                    lets.append(f'let {nn} = {curname}'+' .before'*10+' in'); cur+=10; curname=nn
                lets.append(f'let {nm} = {curname}'+' .before'*(d-cur)+' in')
                base[d]=nm; prev=d; prevname=nm
            else:
                base[d]=None
        body2=body
        for ch,f in pats:
            d=ch.count('.before')
            if base[d]: body2=re.sub(rf'(?<![\w.])c{re.escape(ch)} \.{re.escape(f)}(?![\w«»-])',f'{base[d]} .{f}',body2)
        # now shorten by naming fields used more than once or in long lines
        fields=[]
        for ch,f in pats:
            d=ch.count('.before')
            full=(base[d] if base[d] else 'c'+ch)+' .'+f
            if f in('args','pre') : continue
            n=len(re.findall(re.escape(full)+r'(?![\w«»-])',body2))
            nm=f.replace('«','').replace('»','')+"'"
            if nm in used: continue
            if d>=2 or n>1:
                lets.append(f'let {nm} = {full} in')
                body2=re.sub(re.escape(full)+r'(?![\w«»-])',nm,body2)
        body=('\n'.join(lets)+'\n'+body2) if lets else body2
        body='\n'.join('    '+l if l.strip() else l for l in body.split('\n'))
        out.append(f'{pre}{name} : tie.Need-{need}\n{lhs} =\n{body}')
    open(path,'w').write('\n\n'.join(out))
