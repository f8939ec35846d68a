#!/bin/bash
# mf.sh CRATE EDIT: apply in the stub, check, undo, print facts
cd /work/clones/bhost-stub
C=$1; E=$2
cp -a crates/$C /tmp/bh/keep_$C
python3 - $C $E <<'PY'
import sys
c,e=sys.argv[1:]
f=None;old=None
for l in open(f'crates/{c}/must-fail/{e}.edit').read().split('\n'):
    if l.startswith('file: '): f=f'crates/{c}/'+l[6:]
    elif l.startswith('old: '): old=l[5:]
    elif l.startswith('new: '):
        s=open(f).read(); assert s.count(old)==1,(old,s.count(old)); open(f,'w').write(s.replace(old,l[5:]))
PY
nice -n 10 timeout 90 rt dev $C > /tmp/bh/mf_$C_$E.log 2>&1
grep -o "proofs/[A-Za-z_/]*.antt:[0-9]*:[0-9]*: error: .[a-z0-9-]*" /tmp/bh/mf_$C_$E.log | sort -u
grep -o "logic=[a-z-]*" /tmp/bh/mf_$C_$E.log
rm -rf crates/$C; mv /tmp/bh/keep_$C crates/$C
