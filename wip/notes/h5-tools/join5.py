import sys, os, re
sys.path.insert(0,'/tmp/h5'); import lib; from lib import t
# crate -> (moves: slip -> (file, fact), changed pairs: slip -> (pairs, why or None))
PLAN={
'records':({'cut_before_end':('slips','cut_in'),'mark_past_used':('slips','mark_within'),
  'mark_unjudged':('slips_more','walk_marked'),'history_zeros_forgotten':('slips_more','within')},{}),
'squeeze':({'kept_at_end':('slips','kept-within'),'room_first':('slips_more','no-gain')},
  {'squeeze_over_standing':([('src/lib.rt','if fold.count < k {','if fold.count <= k {')],'11 for k over the standing steps, and not for all of them')}),
'page':({'replace_keeps_mark':('slips_more','mark_left'),'save_marks_used':('slips_more','set_mark'),'unchanged_by_used':('slips_more','told')},{}),
'codec':({'end_forgotten':('slips','size-bound'),'jp2_per_cell_more':('slips_more','bytes_per_cell'),'most_bytes_of_units':('slips_more','size-fits')},{}),
'utf7_read':({'state_sixteen_more':('slips_more','settled-state'),'step_without_limit':('slips_more','step')},{}),
'jp2_read':({'step_past_short':('slips_more','pass')},{}),
'host_compare':({'texts_swapped':('slips','compare')},{}),
'jp2_write':({'index_other':('slips','returns-2'),'room_half':('slips','returns-3')},{}),
'mailbox_read':({'step_place_unrepaired':('slips_more','step')},{}),
'scan':({'number_over':('slips_more','most_of')},{'number_over':([('src/lib.rt','    65536','    99999')],None)}),
'stepper':({'bytes_lost':('slips','step'),'step_keeps_place_utf7':('definitions','returns')},
  {'start_other_format':([('specs/Stepper.antt','startOf format.the-variants.Jp2 = Jp2 (j.cursorOf (atStart jp2))','startOf format.the-variants.Jp2 = Utf7 (u.cursorOf (atStart utf7))')],None)}),
'jp2':({'refused_counts_none':('slips','hold'),'sets_unordered':('slips_more','hold')},{}),
'same_lines':({'count_as_place':('slips','returns'),'second_unsaid':('slips','returns-2'),'text_unsaid':('slips','returns-3'),'texts_alike':('slips','text_number')},{}),
'marks':({'ahead_last':('slips','returns-2'),'ahead_short':('slips','returns-3'),'marked_low':('slips','marked')},{}),
'jp2_tally':({'counts_kept':('slips','returns-2'),'limit_passed':('slips','loop-holds'),'other_set':('slips','place_of')},{}),
'host_pages':({'never_is_a_mark':('definitions','mark_in'),'zero_is_never':('definitions','mark_number'),'no_kind_never_long':('definitions','unchanged'),
  'kept_without_arrived':('slips','kept-found'),'session_refused_taken':('slips','host-restored'),'run_undo_redoes':('slips','host-call'),'save_mark_dropped':('slips','page_in')},
  {'save_mark_dropped':([('src/lib.rt','let saved = mark_in(p.saved);','let saved = mark_in(NEVER);')],None)}),
}
HEAD='# Several slips, one check: each is refused at a fact of its own.'
def build(crate):
    S=lib.parse(crate); mv,ch=PLAN[crate]
    for n,(pairs,why) in ch.items():
        S[n]['pairs']=pairs
        if why: S[n]['why']=why
    old={s['label'] for s in S.values()}
    for n,(f,fact) in mv.items():
        s=S[n]
        if not s['multi']: s['why']=re.sub(r'\s*\((proofs|past)[/:]+\w+\)$','',s['why'])
        s.update(label=f,fact=fact,multi=True)
    files={}
    for n,s in S.items(): files.setdefault(s['label'],[]).append(n)
    out={}
    for lab,g in files.items():
        if not S[g[0]]['multi']: continue
        g=sorted(g,key=lambda n:lib.place(crate,S[n]))
        if any(lib.place(crate,S[n])[1]<0 for n in g): raise SystemExit(f'{crate}/{lab}: no place {[n for n in g if lib.place(crate,S[n])[1]<0]}')
        if not lib.applies(crate,[S[n] for n in g]): raise SystemExit(f'{crate}/{lab}: does not apply')
        facts=[S[n]['fact'] for n in g]
        if len(set(facts))!=len(facts): raise SystemExit(f'{crate}/{lab}: fact twice {facts}')
        ls=[HEAD]; cur=None
        for n in g:
            s=S[n]; f0=s['pairs'][0][0]
            if f0!=cur: ls.append(f'file: {f0}'); cur=f0
            ls.append(f"# {n} ({s['fact']}): {s['why']}")
            for f,o,w in s['pairs']:
                if f!=cur: ls.append(f'file: {f}'); cur=f
                ls+=[f'old: {o}',f'new: {w}' if w else 'new:']
        out[lab]='\n'.join(ls)+'\n'
    return S,out,old
if __name__=='__main__':
    for c in (sys.argv[1:] or PLAN):
        S,out,old=build(c); d=f'{lib.ROOT}/crates/{c}/must-fail'
        for lab,x in out.items():
            p=f'{d}/{lab}.edit'
            had=open(p).read() if os.path.exists(p) else None
            if had!=x: open(p,'w',encoding='utf-8').write(x)
            print(c,lab,'same' if had==x else 'NEW',t.slips(x))
        left={s['label'] for s in S.values()}
        for lab in old-left: os.remove(f'{d}/{lab}.edit'); print(c,'removed',lab)
