import sys; sys.path.insert(0,'/tmp/lg')
from emit import *
imp='''
use Prim.Native.Nat.{ℕ, _+_, _-_, _*_, _/_, _<_, _≤_}
use mathlib.Core.Path.{_≡_, refl, _∙_}
use mathlib.Core.List.{List}
use native.Mathlib.Omega.{arith}
use lib.ListN.{length, length-set}
use lib.Seq.{slice}
use borrow.Author.Needs.{needs}
'''
order=['add-if1','returns','mark-requires','loop-holds','add-loop','add-if2','same-length','returns-2','slice-aggregate-ahead','sub-ahead','ahead-requires','cells-ahead-requires','put-cells-requires','add-at','add-n','sign-at-requires','same-length-2','returns-3','mul-out','slice-write-out','add-n-2','add-at-2','loop-less','loop-again','loop-less-2','loop-again-2','same-length-3','returns-4']
emit('put_shorts',imp+'''
use Rattle·marks.proofs.Counting.{ahead-le}
use Rattle·utf7.specs.Sets.{direct}
use Rattle·answer.proofs.Laid.{Laid}
use Rattle·utf7_whole·specs.specs.Quick.{Span, Fills}
use Rattle·utf7_whole·proofs.proofs.Buffers.{span-marked, laid-slice, fills-none, fills-on, filled-direct, filled-one}''',
'Inv-loop text from out₀ start at₀ n₀ marks out at n = Fills text from start out₀ at n out × (n ≤ length out)',
'μ-loop text from out₀ start at₀ n₀ marks out at n = from + 128 - at',
[('add-at',f'''-- behind the bytes that stand for themselves
abbrev W : Type 0
W = tie.After-slice-known2 Inv-loop μ-loop

abbrev top : W → tie.In-loop Inv-loop μ-loop
top c = c{B(8)}

abbrev begun : W → tie.After-mark Inv-loop μ-loop
begun c = top c .before .before

abbrev size : W → ℕ
size c = c{B(5)} .ahead .result

few : (c : W) → size c ≤ 16
few c = omega (arith, c{B(5)} .ahead .ensures, ahead-le (begun c .mark .result) (top c .before .loop .at - begun c{B(4)} .args .from))

inside : (c : W) → top c .before .loop .at + 21 ≤ length (begun c{B(4)} .args .text .now)
inside c = omega (arith, top c .loop-test .taken, begun c .before .if1 .left)

span : (c : W) → let at = top c .before .loop .at in Span direct (begun c{B(4)} .args .text .now) at (at + size c)
span c = let l = top c .before .loop in
    let a = begun c{B(4)} .args in
    span-marked (begun c .mark .ensures) (l .at - a .from) (c{B(5)} .ahead .ensures) (omega (arith, l .inv .0 .on)) (omega (arith, top c .loop-test .taken)) (omega (arith, inside c))

laid : (c : W) → let l = top c .before .loop in Laid (slice (l .at) (l .at + size c) (begun c{B(4)} .args .text .now)) (l .n) (l .out) (c .before .before .put-cells .last .1 .0)
laid c = let l = top c .before .loop in
    laid-slice (begun c{B(4)} .args .text .now) (l .at) (l .at + size c) (l .at + 16) (omega arith) (omega (arith, few c)) (omega (arith, inside c))
    (rw (c{B(4)} .cells-ahead .ensures) at (c .before .before .put-cells .ensures)) (l .inv .1)

stretch :
    (c : W) → let l = top c .before .loop in
    let a = begun c{B(4)} .args in
    Fills (a .text .now) (a .from) (a .start) (a .out .now) (l .at + size c) (l .n + size c) (c .before .before .put-cells .last .1 .0)
stretch c = fills-on (top c .before .loop .inv .0) (omega arith) (c .before .before .put-cells .ensures .same) (λ s p f. filled-direct f p _ (span c) (laid c))

room : (c : W) → top c .before .loop .n + size c < length (c .before .before .put-cells .last .1 .0)
room c = omega (arith, few c, c{B(7)} .if2 .left, c .before .before .put-cells .ensures .same)'''),
],
{
 'add-if1':'omega (arith, c .before .before .pre .0)',
 'returns':'fills-none _ _ _ _',
 'loop-holds':'(fills-none _ _ _ _, c .before .before .before .before .pre .1)',
 'add-loop':'omega (arith, c .before .before .if1 .left)',
 'same-length':'c .before .before .loop .inv .0 .same',
 'returns-2':'c .before .before .loop .inv .0',
 'sub-ahead':'omega (arith, c .before .before .before .loop .inv .0 .on)',
 'cells-ahead-requires':'omega (arith, c .before .before .before .loop-test .taken, c .before .before .before .before .before .before .if1 .left)',
 'add-at':'omega (arith, few c, inside c)',
 'add-n':'omega (arith, room c)',
 'sign-at-requires':'omega (arith, c .if3 .taken, inside (c .before))',
 'same-length-2':'stretch (c .before .before .before) .same',
 'returns-3':'stretch (c .before .before .before)',
 'mul-out':'omega (arith, room (c .before .before .before))',
 'slice-write-out':'room (c .before .before .before)',
 'add-n-2':'omega (arith, room (c .before .before .before))',
 'add-at-2':'omega (arith, few (c .before .before .before), inside (c .before .before .before))',
 'loop-less':'omega (arith, top (c .before .before .before) .loop-test .taken)',
 'loop-again':'''let w = c .before .before .before in
    let o = c .before .sign-at .ensures (omega (arith, c .if4 .left)) in
    (fills-on (stretch w) (omega arith) (simp length-set) (λ s p f. filled-one f p (o .0) (room w) (o .1)), simp length-set (omega (arith, room w)))''',
 'loop-less-2':'omega (arith, few (c .before), c .if3 .left, top (c .before) .loop-test .taken)',
 'loop-again-2':'(stretch (c .before), omega (arith, room (c .before)))',
 'same-length-3':'c .before .loop .inv .0 .same',
 'returns-4':'c .before .loop .inv .0',
},order)

# put_token
order='shared-slice-read-if1 returns add-from one-at-requires mul-out slice-write-out add-put-shorts add-put-shorts-2 put-shorts-requires same-length returns-2 shared-slice-read-if3 mul-out-2 slice-write-out-2 add-t18 add-t20 same-length-2 returns-3 put-run-requires same-length-3 returns-4 past-run-requires same-length-4 returns-5'.split()
emit('put_token',imp+'''
use Rattle·utf7_whole·specs.specs.Quick.{Fills, past}
use Rattle·utf7_whole·proofs.proofs.Tokens.{past-on}
use Rattle·utf7_whole·proofs.proofs.Buffers.{fills-none, fills-on, filled-kept, filled-sign, filled-run, filled-one}''',None,None,
[('same-length',f'''-- the unit of a run of three letters, and what follows it
shorts :
    (c : tie.After-slice-known2) →
    let a = c{B(10)} .args in
    Fills (a .text .now) (a .at) (a .n) (a .out .now) (c .before .before .put-shorts .result .at) (c .before .before .put-shorts .result .n) (c .before .before .put-shorts .last .1 .1 .0)
shorts c =
    let a = c{B(10)} .args in
    let t = c{B(4)} in
    let r = c .before .before .put-shorts .ensures in
    let one = fills-on (fills-none (a .text .now) (a .at) (a .n) (a .out .now)) (omega arith) (simp length-set)
      (λ s p f. filled-one f p (c{B(6)} .if1 .left) (c{B(10)} .pre .1) (t .before .one-at .ensures (t .if2 .taken))) in
    fills-on one (r .on) (r .same) (r .fills)'''),
('same-length-2',f'''sign : (c : tie.Then3) → let a = c{B(8)} .args in Fills (a .text .now) (a .at) (a .n) (a .out .now) (a .at + 2) (a .n + 1) _
sign c = let a = c{B(8)} .args in
    fills-on (fills-none (a .text .now) (a .at) (a .n) (a .out .now)) (omega arith) (simp length-set) (λ s p f. filled-sign f p (c{B(4)} .if1 .left) (c{B(8)} .pre .1) (c .if3 .taken))'''),
],
{
 'returns':'fills-none _ _ _ _',
 'put-shorts-requires':f'(omega (arith, c{B(7)} .pre .0), simp length-set (omega (arith, c{B(7)} .pre .1)))',
 'same-length':'shorts c .same',
 'returns-2':'shorts c',
 'same-length-2':'simp length-set',
 'returns-3':f'let a = c{B(8)} .args in fills-on (fills-none (a .text .now) (a .at) (a .n) (a .out .now)) (omega arith) (simp length-set) (λ s p f. filled-sign f p (c{B(4)} .if1 .left) (c{B(8)} .pre .1) (c .if3 .taken))',
 'put-run-requires':f'(omega (arith, c{B(9)} .pre .0), omega (arith, c{B(9)} .pre .1))',
 'same-length-3':f'c{B(4)} .put-run .ensures .kept .same',
 'returns-4':f'let a = c{B(14)} .args in let k = c{B(4)} .put-run .ensures .kept in fills-on (fills-none (a .text .now) (a .at) (a .n) (a .out .now)) (omega arith) (k .same) (λ s p f. filled-kept f k)',
 'same-length-4':f'c{B(5)} .put-run .ensures .kept .same',
 'returns-5':f'''let a = c{B(15)} .args in
    let r = c{B(5)} .put-run in
    let z = c .before .if4 .left in
    let e = r .ensures in
    rw (c .past-run .ensures) (fills-on (fills-none (a .text .now) (a .at) (a .n) (a .out .now)) (omega (arith, past-on (a .text .now) (r .result .at), e .run z .some)) (e .kept .same)
    (λ s p f. filled-run f p (c{B(11)} .if1 .left) (e .run z) (e .laid z) (e .count z)))''',
},order)
p=d+'quick/put_token/Proof.antt'; s=open(p).read()
i=s.index('sign : (c : tie.Then3)'); j=s.index('same-length-2 :'); s=s[:i]+s[j:]; open(p,'w').write(s)

# judge_token
order='shared-slice-read-if1 returns add-from one-at-requires add-judge-shorts add-judge-shorts-2 judge-shorts-requires returns-2 shared-slice-read-if3 add-t14 add-t15 returns-3 judge-run-requires returns-4 past-run-requires sub-units units-requires add-t19 returns-5'.split()
emit('judge_token',imp+'''
use Rattle·reading.proofs.Laws.{Left}
use Rattle·utf7.specs.Rule.{outside, utf7}
use Rattle·utf7_whole·specs.specs.Quick.{past}
use Rattle·utf7_whole·proofs.proofs.Tokens.{past-on}
use Rattle·utf7_whole·proofs.proofs.Judged.{left-sign, left-run, left-one}''',None,None,
[('sub-units',f'''-- behind a run
run :
    (c : tie.Else4) →
    let a = c{B(9)} .args in
    let end = c .before .judge-run .result in
    Left utf7 (a .text .now) (past (a .text .now) end) outside (a .n + (end - (a .at + 1)) * 6 / 16)
run c = left-run (c{B(9)} .pre .1) (c{B(6)} .if1 .left) (c .before .judge-run .ensures (c .if4 .left))''')],
{
 'returns':f'(c{B(3)} .pre .1, omega arith)',
 'add-judge-shorts-2':f'omega (arith, c{B(5)} .pre .1 .few, c{B(5)} .pre .1 .within)',
 'judge-shorts-requires':f'left-one (c{B(5)} .pre .1) (c .before .before .if1 .left) (c .before .one-at .ensures (c .if2 .taken))',
 'returns-2':'(c .judge-shorts .ensures .0, omega (arith, c .judge-shorts .ensures .1))',
 'add-t15':f'omega (arith, c{B(7)} .pre .1 .few, c{B(7)} .pre .1 .within)',
 'returns-3':f'(left-sign (c{B(7)} .pre .1) (c{B(4)} .if1 .left) (c .if3 .taken), omega arith)',
 'judge-run-requires':f'omega (arith, c{B(7)} .pre .0)',
 'returns-4':f'(c{B(9)} .pre .1, omega arith)',
 'sub-units':'omega (arith, c .before .before .judge-run .ensures (c .before .if4 .left) .some)',
 'add-t19':'let l = run (c .before .before) in omega (arith, c .units .ensures, l .few, l .within)',
 'returns-5':f'''let e = c .before .before in
    (rw (c .before .past-run .ensures, c .units .ensures) (run e), rw (c .before .past-run .ensures) (omega (arith, past-on (e{B(9)} .args .text .now) (e .before .judge-run .result), e .before .judge-run .ensures (e .if4 .left) .some)))''',
},order)

# judge
order='loop-holds add-loop direct-ahead-requires add-at add-n loop-less loop-again add-judge-token add-judge-token-2 judge-token-requires add-if2 returns loop-less-2 loop-again-2 returns-2'.split()
emit('judge',imp+'''
use Rattle·reading.proofs.Laws.{Left, left-start}
use Rattle·utf7.specs.Rule.{outside, utf7}
use Rattle·utf7_whole·proofs.proofs.Judged.{left-direct, left-as}''',
'Inv-loop text at₀ n₀ at n = Left utf7 text at outside n',
'μ-loop text at₀ n₀ at n = length text - at',
[('add-at',f'''-- behind the bytes that stand for themselves, with many to follow
abbrev D : Type 0
D = tie.After-direct-ahead Inv-loop μ-loop

direct : (c : D) → let l = c .before .before in Left utf7 (l{B(2)} .args .text .now) (l .loop .at + c .direct-ahead .result) outside (l .loop .n + c .direct-ahead .result)
direct c = left-direct (c .before .before .loop .inv) _ (c .direct-ahead .ensures .1)

near : (c : D) → let l = c .before .before in l .loop .at + c .direct-ahead .result + 5 ≤ length (l{B(2)} .args .text .now)
near c = omega (arith, c .direct-ahead .ensures .0, c .before .loop-test .taken)'''),
],
{
 'loop-holds':'left-start utf7 _',
 'add-loop':'omega (arith, c .loop .inv .within)',
 'add-at':'omega (arith, near (c .before), c .if1 .taken)',
 'add-n':'omega (arith, near (c .before), direct (c .before) .few, c .if1 .taken)',
 'loop-again':'left-as (direct (c .before)) (omega (arith, c .if1 .taken)) (omega (arith, c .if1 .taken))',
 'add-judge-token':'omega (arith, near (c .before))',
 'add-judge-token-2':'omega (arith, near (c .before), direct (c .before) .few)',
 'judge-token-requires':'(near (c .before), direct (c .before))',
 'add-if2':'omega (arith, near (c .before .before))',
 'returns':'c .before .before .judge-token .ensures .0',
 'loop-less-2':'let r = c .before .before in omega (arith, r .judge-token .ensures .1, r .judge-token .ensures .0 .within, c .if2 .left, near (r .before .before))',
 'loop-again-2':'c .before .before .judge-token .ensures .0',
 'returns-2':'c .before .loop .inv',
},order)

# fill
order='loop-holds add-loop add-if1 same-length returns direct-ahead-requires widen-requires add-at add-n loop-less loop-again add-put-token add-put-token-2 put-token-requires add-if3 same-length-2 returns-2 loop-less-2 loop-again-2 same-length-3 returns-3'.split()
emit('fill',imp+'''
use Rattle·utf7.specs.Rule.{outside}
use Rattle·utf7_whole·specs.specs.Quick.{Padded, Filled}
use Rattle·utf7_whole·proofs.proofs.Buffers.{padded-self, filled-start, filled-as, filled-in, filled-direct}''',
'''Inv-loop text out₀ at₀ n₀ out at n = Filling text at n out × (length out ≡ length out₀) × (n ≤ length out)''',
'μ-loop text out₀ at₀ n₀ out at n = length text - at',
[('loop-less',f'''-- the loop's start, from behind the bytes that stand for themselves
abbrev W : Type 0
W = tie.After-slice-known2 Inv-loop μ-loop

abbrev top : W → tie.In-loop Inv-loop μ-loop
top c = c{B(6)}

abbrev size : W → ℕ
size c = c{B(4)} .direct-ahead .result

-- they are laid
direct : (c : W) → let l = top c .before in Filling (l{B(3)} .args .text .now) (l .loop .at + size c) (l .loop .n + size c) (c .before .before .widen .last .1 .1 .1 .0)
direct c s p = filled-direct (top c .before .loop .inv .0 s p) p _ (c{B(4)} .direct-ahead .ensures .1) (c .before .before .widen .ensures)

same : (c : W) → length (c .before .before .widen .last .1 .1 .1 .0) ≡ length (top c{B(4)} .args .out .now)
same c = c .before .before .widen .ensures .same ∙ top c .before .loop .inv .1

-- many bytes follow, and there is room
near : (c : W) → let l = top c .before in l .loop .at + size c + 5 ≤ length (l{B(3)} .args .text .now)
near c = omega (arith, c{B(4)} .direct-ahead .ensures .0, top c .loop-test .taken)

room : (c : W) → top c .before .loop .n + size c < length (c .before .before .widen .last .1 .1 .1 .0)
room c = omega (arith, c{B(4)} .direct-ahead .ensures .0, c{B(5)} .if1 .left, c .before .before .widen .ensures .same)'''),
('same-length-2',f'''-- behind what begins at a sign
abbrev T : Type 0
T = tie.After-slice-known3 Inv-loop μ-loop

abbrev back : T → W
back c = c{B(5)}

token : (c : T) → let r = c .before .before .put-token in Filling (top (back c){B(4)} .args .text .now) (r .result .at) (r .result .n) (r .last .1 .1 .0)
token c s p = c .before .before .put-token .ensures .fills s p (direct (back c) s p)

all : (c : T) → let r = c .before .before .put-token in Filled (top (back c){B(4)} .args .text .now) (r .result .at) outside (r .result .n) (r .last .1 .1 .0)
all c = token c _ (padded-self _)'''),
],
{
 'loop-holds':'(λ s p. filled-start s _, refl, omega arith)',
 'add-loop':f'omega (arith, c .loop .inv .0 _ (padded-self (c{B(3)} .args .text .now)) .left .within)',
 'same-length':'c .before .before .loop .inv .1',
 'returns':'c .before .before .loop .inv .0',
 'widen-requires':'(c .before .direct-ahead .ensures .0, omega (arith, c .before .before .before .loop-test .taken), omega (arith, c .before .before .if1 .left))',
 'loop-again':'''(
      λ s p. filled-as (direct (c .before) s p) (omega (arith, c .if2 .taken)) (omega (arith, c .if2 .taken)),
      same (c .before),
      omega (arith, room (c .before), c .if2 .taken),
    )''',
 'add-put-token':'omega (arith, near (c .before))',
 'add-put-token-2':'omega (arith, room (c .before .before))',
 'put-token-requires':'let w = c .before .before in (near w, room w)',
 'add-if3':'omega (arith, near (back c))',
 'same-length-2':'let t = c .before .before in t .before .before .put-token .ensures .same ∙ same (back t)',
 'returns-2':'token (c .before .before)',
 'loop-less-2':'let t = c .before .before in omega (arith, t .before .before .put-token .ensures .on, all t .left .within, c .if3 .left, near (back t))',
 'loop-again-2':'let t = c .before .before in (token t, t .before .before .put-token .ensures .same ∙ same (back t), filled-in (all t))',
 'same-length-3':'c .before .loop .inv .1',
 'returns-3':'c .before .loop .inv .0',
},order)
p=d+'quick/fill/Proof.antt'; s=open(p).read()
s=s.replace('abbrev Inv-loop : tie.InvT-loop','''-- the cells so far stand in front, whatever text is lent with zeros behind it
abbrev Filling : List ℕ → ℕ → ℕ → List ℕ → Type 0
Filling text at n out = (s : List ℕ) → Padded s text → Filled s at outside n out

abbrev Inv-loop : tie.InvT-loop''',1)
# helper block before add-if3 uses back: move T/back before add-if3
i=s.index('-- behind what begins at a sign'); j=s.index('same-length-2 :'); blk=s[i:j]; s=s[:i]+s[j:]
k=s.index('add-if3 :'); s=s[:k]+blk+s[k:]
open(p,'w').write(s)
