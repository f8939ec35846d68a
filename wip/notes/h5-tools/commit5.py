import sys, subprocess
R='/work/clones/h5'
ROWS={
'utf7_read':[('utf7_read/step_without_limit (laws step-cell, step-over)','utf7_read/step_without_limit (`step`)')],
'scan':[('scan/number_over (`decimal: loop-again`)','scan/number_over (`most_of`)')],
'host_pages':[('host_pages/never_is_a_mark (laws mark-back, mark-there)','host_pages/never_is_a_mark (`mark_in`; laws mark-back, mark-there)'),
 ('host_pages/zero_is_never (laws mark-back, mark-there)','host_pages/zero_is_never (`mark_number`; laws mark-back, mark-there)'),
 ('host_pages/zero_is_never (law mark-back, on which page-back stands)','host_pages/zero_is_never (`mark_number`; law mark-back, on which page-back stands)'),
 ('host_pages/no_kind_never_long (`replace: returns`)','host_pages/no_kind_never_long (`unchanged: returns`)')],
}
for c,a,b in [x.split(',') for x in sys.argv[1:]]:
    p=R+'/docs/PROMISES.md'; s=open(p,encoding='utf-8').read()
    for o,n in ROWS.get(c,[]):
        assert s.count(o)==1,(c,o,s.count(o)); s=s.replace(o,n)
    open(p,'w',encoding='utf-8').write(s)
    subprocess.run(['git','-C',R,'add','-A',f'crates/{c}/must-fail','docs/PROMISES.md'],check=True)
    subprocess.run(['git','-C',R,'commit','-q','-m',f'{c}: slips that share a check ({a} files are {b})'],check=True)
    print(c,subprocess.run(['git','-C',R,'log','--oneline','-1'],capture_output=True,text=True).stdout.strip())
