import re,os
d='/work/clones/long/crates/jp2_whole/proofs/'
B=lambda n:' .before'*n
def emit(name, imports, inv, mu, helpers, ans, order):
    loop = inv is not None
    suf=' Inv-loop μ-loop' if loop else ''
    out=[imports.strip(), f'use Rattle·jp2_whole·proofs.proofs.quick.{name}.Statement.{{statement}}', f'use Rattle·jp2_whole·proofs.proofs.quick.{name}.Tie as tie','']
    if loop:
        out+= ['abbrev Inv-loop : tie.InvT-loop', inv,'','abbrev μ-loop : tie.MeasureT-loop', mu,'']
    hs=dict(helpers)
    for n in order:
        if n in hs: out+=[hs[n].strip(),'']
        k=' κs' if re.search(r'-requires(-\d+)?$',n) else ''
        out+=[f'{n} : tie.Need-{n}{suf}', f'{n} c{k} = {ans.get(n,"search needs")}','']
    fn=name.replace('_','-')
    out+=[f'pub {fn}-spec : {{M : Type 1}} → statement M', f'{fn}-spec =','    tie.close','    (tie.spec']
    if loop: out+=['    Inv-loop','    μ-loop']
    out+=['    '+n for n in order]
    s='\n'.join(out)+')\n'
    os.makedirs(d+'quick/'+name,exist_ok=True)
    open(d+f'quick/{name}/Proof.antt','w').write(s)

# Laying: restore kept-on, filled-behind
p=d+'Laying.antt'; s=open(p).read()
if 'filled-behind' not in s:
    s=s.replace('''-- a front that is all''','''-- what lies behind the first elements is kept
pub filled-behind : (l out : List ℕ) (m : ℕ) → length l ≤ m → drop m (filled l out) ≡ drop m out
filled-behind l out m h =
    let z : length l + (m - length l) ≡ m = omega arith in
    let far : (x : List ℕ) → drop (m - length l) (drop (length l) x) ≡ drop m x = λ x. rw z at (drop-drop (m - length l) (length l) x) in
    sym (far (filled l out)) ∙ ap (drop (m - length l)) (drop-at l (drop (length l) out) (length l) refl) ∙ far out

-- a front that is all''')
    s=s.replace("use lib.Seq.{drop-drop, take-add, take-at, take-length,","use lib.Seq.{drop-drop, drop-at, take-add, take-at, take-length,")
    s=s.replace("use Rattle·answer.proofs.Laid.","use Rattle·answer.specs.Output.{filled}\nuse Rattle·answer.proofs.Laid.",1)
    open(p,'w').write(s)
# Tokens
p=d+'Tokens.antt'; s=open(p).read()
if 'print-one' not in s:
    s=s.replace('''-- a pair
neither-set''','''-- printing bytes, with any set in G2
printing-high : (b : ℕ) → printing b ≡ true → (32 ≤ b) × (b < 128)
printing-high b e = let q = both (leb 32 b) _ e in (leb-true 32 b (q .0), ltb-true b 128 (q .1))

print-one :
    (s : List ℕ) (at g2 : ℕ) → at < length s → printing (getD s at 0) ≡ true →
    Stride jp2 s at (at-rest 6 g2) (at + 1) (cellOf 6 (getD s at 0) ∷ []) (at-rest 6 g2)
print-one s at g2 h k =
    let q = printing-high (getD s at 0) k in
    rw (cond-same (graphic (getD s at 0)) 6) at (high-stride {s = s} {at = at} {g0 = 6} {g2 = g2} h refl (q .0) (q .1))

prints-from :
    (k : ℕ) (s : List ℕ) (from g2 : ℕ) → from + k ≤ length s → ((i : ℕ) → from ≤ i → i < from + k → printing (getD s i 0) ≡ true) →
    Stride jp2 s from (at-rest 6 g2) (from + k) (map (cellOf 6) (take k (drop from s))) (at-rest 6 g2)
prints-from zero s from g2 h e = stride-to (stride-stay (omega arith)) (omega arith)
prints-from (suc k) s from g2 h e =
    let q : from < length s = omega arith in
    rw (drop-cons s from 0 q, ← add-one from)
    (stride-to
    (stride-on (print-one s from g2 q (e from (omega arith) (omega arith)))
    (prints-from k s (from + 1) g2 (omega arith) (λ i a b. e i (omega arith) (omega arith))))
    (omega arith))

pub prints-stride :
    {s : List ℕ} {from : ℕ} (k g2 : ℕ) → Spanned printing s from (from + k) → Stride jp2 s from (at-rest 6 g2) (from + k) (cellsOf s from (from + k)) (at-rest 6 g2)
prints-stride {s} {from} k g2 p =
    let z : from + k - from ≡ k = omega arith in
    rw z (prints-from k s from g2 (p .within) (p .each))

-- as far as there are marks of 0
marked-prints : (b : Bool) → _≡_ {A = ℕ} (cond b 0 255) 0 → b ≡ true
marked-prints true e = refl
marked-prints false e = absurd (omega arith)

pub spanned-marked :
    {s xs : List ℕ} {from : ℕ} → Marked s from xs → (j : ℕ) {at r : ℕ} → r ≡ aheadIn xs j → at ≡ from + j → j + 16 ≤ 144 → at + 16 ≤ length s → Spanned printing s at (at + r)
spanned-marked {s} {xs} {from} m j {at} {r} e p h l =
    record { ordered = omega arith; within = omega (arith, ahead-le xs j); each = by }
  where
    by : (i : ℕ) → at ≤ i → i < at + r → printing (getD s i 0) ≡ true
    by i a b =
        let q : from + (j + (i - at)) ≡ i = omega arith in
        let z = ahead-zero xs j (i - at) (omega arith) in
        let t = m .so (j + (i - at)) (omega (arith, ahead-le xs j)) in
        rw q at (marked-prints (printing (getD s (from + (j + (i - at))) 0)) (sym t ∙ z))

-- a pair
neither-set''')
    s=s.replace('''-- one byte more of a block''','''-- sixteen cells are put, of which those of printing bytes count
pub laid-printed :
    {s xs : List ℕ} {at k n : ℕ} {out out' : List ℕ} → Printed s at xs → Spanned printing s at (at + k) → k ≤ 16 → Laid xs n out out' → n ≤ length out →
    Laid (cellsOf s at (at + k)) n out out'
laid-printed {s} {xs} {at} {k} p q h l m = rw e at (laid-front k l m (omega (arith, p .size)))
  where
    t : length (take k xs) ≡ k
    t = length-take-le k xs (omega (arith, p .size))

    by : (i : ℕ) → i < k → getD (take k xs) i 0 ≡ getD (cellsOf s at (at + k)) i 0
    by i j =
        let b = printing-high (getD s (at + i) 0) (q .each (at + i) (omega arith) (omega arith)) in
        let w : getD s (at + i) 0 % 128 + 393216 ≡ cellOf 6 (getD s (at + i) 0) = omega (arith, b .0, b .1) in
        getD-take k xs i 0 j ∙ p .so i (omega arith) ∙ w ∙ sym (cells-get s at (at + k) (q .within) i (omega arith))

    e : take k xs ≡ cellsOf s at (at + k)
    e = ext-getD 0 (take k xs) (cellsOf s at (at + k)) (t ∙ sym (cells-length s at (at + k) (q .within) ∙ omega arith)) (λ i j. by i (omega (arith, t)))

-- one byte more of a block''')
    s=s.replace("specs.Quick.{Shift, Pair, Spanned, Plains, Stretch, Pairs}","specs.Quick.{Shift, Pair, Spanned, Plains, Stretch, Pairs, printing, Marked, Printed}")
    s=s.replace("use lib.Seq.{drop-cons, length-take-le, getD-drop, getD-take}","use lib.Seq.{drop-cons, length-take-le, getD-drop, getD-take, ext-getD}")
    s=s.replace("use Rattle·answer.proofs.Below.{both}","use Rattle·answer.proofs.Below.{both}\nuse Rattle·answer.proofs.Laid.{Laid, laid-front}\nuse Rattle·marks.specs.Marks.{aheadIn}\nuse Rattle·marks.proofs.Counting.{ahead-le, ahead-zero}")
    open(p,'w').write(s)
# through
s=open('/tmp/lg/old_through.antt').read()
i=s.index('decode-requires : tie'); j=s.index('same-length-3 :'); k=s.index('returns-3 :'); l=s.index('pub through-spec')
s=s[:i]+f'''slice-relend-prefix-decode : tie.Need-slice-relend-prefix-decode
slice-relend-prefix-decode c = search needs

-- as many places are lent as there are cells
lent : (c : tie.After-decode-arg) → length (take (c{B(8)} .found .given .0 .0) (c{B(3)} .copy .last .1 .1 .0)) ≡ c{B(8)} .found .given .0 .0
lent c = length-take-le _ _ (omega (arith, c{B(6)} .if1 .left, c{B(3)} .copy .kept .1 .1 .0))

slice-aggregate-decode : tie.Need-slice-aggregate-decode
slice-aggregate-decode c = sym (lent c)

decode-requires : tie.Need-decode-requires
decode-requires c κs =
    let f = c{B(13)} in
    let r = f .fill-on .result .n in
    let k = length-take-le r (f .fill-on .last .1 .1 .0) (f .fill-on .ensures .fits) in
    (omega (arith, lent c, count (c{B(8)})), record {{
      left = left f;
      front =
          take-take r (c{B(8)} .found .given .0 .0) (c{B(3)} .copy .last .1 .1 .0) (omega (arith, left f .inside, count (c{B(8)})))
          ∙ (rw (c{B(3)} .copy .ensures) (take-at _ _ _ k) ∙ laying-front (f .fill-on .ensures) (left-start jp2 _) refl);
    }})

'''+s[j:k]+f'''returns-3 : tie.Need-returns-3
returns-3 c =
    let f = c{B(16)} in
    let t = now (c{B(21)} .args .text) in
    let k = length-take-le (f .fill-on .result .n) (f .fill-on .last .1 .1 .0) (f .fill-on .ensures .fits) in
    let b = filled-behind (take (f .fill-on .result .n) (f .fill-on .last .1 .1 .0)) (now (c{B(21)} .args .out)) (length (reading jp2 t .cells)) (omega (arith, k, left f .inside)) in
    let e : c .before .before .decode .last .1 .1 .0 ≡ reading jp2 t .cells =
    all-front (c .before .before .decode .kept .1 .1 .0 ∙ lent (c{B(3)}) ∙ count (c{B(11)})) (c .before .before .decode .ensures) in
    into-filled jp2-kept _ _ (within (c{B(13)})) (ap inNumbers (sym (c{B(11)} .found .given .1)) ∙ c{B(13)} .measure .ensures) refl (c{B(9)} .if1 .left)
    (rw (e, count (c{B(11)})) (ap (λ (z : List ℕ). reading jp2 t .cells ++ z) (rw (c{B(6)} .copy .ensures) b)))

'''+s[l:]
s=s.replace('    decode-requires\n','    slice-relend-prefix-decode\n    slice-aggregate-decode\n    decode-requires\n')
s=s.replace("{laying-left, laying-front, filling-of, filled-behind}","{laying-left, laying-front, filled-behind, all-front}").replace("use lib.Seq.{take-at, length-take-le}","use lib.Seq.{take-at, take-take, length-take-le}")
s=s.replace("use Rattle·jp2_whole·proofs.proofs.Laying.","use Rattle·jp2_whole·specs.specs.Quick.{Filled}\nuse Rattle·jp2_whole·proofs.proofs.Laying.")
os.makedirs(d+'through',exist_ok=True); open(d+'through/Proof.antt','w').write(s)

# is_printing, printed: try search (no file)
u='/work/clones/long/crates/utf7_whole/proofs/quick/'
s=open(u+'mark/Proof.antt').read()
s=s.replace('utf7_whole','jp2_whole').replace('is-direct-byte','is-printing').replace('direct (','printing (').replace('use Rattle·utf7.specs.Sets.{direct}','use Rattle·jp2_whole·specs.specs.Quick.{printing}').replace('proofs.Tokens.{set-more}','proofs.Tokens.{set-more}')
os.makedirs(d+'quick/mark',exist_ok=True); open(d+'quick/mark/Proof.antt','w').write(s)
s=open(u+'put_cells/Proof.antt').read().replace('utf7_whole','jp2_whole'); os.makedirs(d+'quick/put_cells',exist_ok=True); open(d+'quick/put_cells/Proof.antt','w').write(s)
s=open(u+'cells_ahead/Proof.antt').read().replace('utf7_whole','jp2_whole').replace('wide','printed')
s=s.replace('getD x j 0 ≡ getD text (at + j) 0)','getD x j 0 ≡ getD text (at + j) 0 % 128 + 393216)').replace('λ j x. x ≡ getD (a .text .now) (a .at + j) 0 in','λ j x. x ≡ getD (a .text .now) (a .at + j) 0 % 128 + 393216 in')
i=s.index('returns : tie'); j=s.index('pub cells-ahead-spec')
s=s[:i]+'''returns : tie.Need-returns Inv-loop μ-loop
returns c = let i = c .before .loop .inv in record { size = i .1; so = λ k h. i .2 k (omega (arith, h, c .loop-test .left)) }

'''+s[j:]
s=s.replace('use Prim.Native.Nat.{ℕ, _+_, _-_, _<_, _≤_}','use Prim.Native.Nat.{ℕ, _+_, _-_, _%_, _<_, _≤_}').replace('use lib.Seq.{slice, length-slice, ext-getD}\n','').replace('Tokens.{set-more, slice-at}','Tokens.{set-more}')
os.makedirs(d+'quick/cells_ahead',exist_ok=True); open(d+'quick/cells_ahead/Proof.antt','w').write(s)
# set-more: copy from utf7 Tokens
t=open('/work/clones/long/crates/utf7_whole/proofs/Tokens.antt').read()
i0=t.index('-- one more element of an array'); mm=t[i0:].rstrip()
p=d+'Tokens.antt'; s=open(p).read()
if 'set-more' not in s:
    s=s.replace('-- one byte more of a block',mm+'\n\n-- one byte more of a block'); open(p,'w').write(s)

imp='''
use Prim.Native.Nat.{ℕ, _+_, _-_, _<_, _≤_}
use mathlib.Core.Path.{_≡_, refl, _∙_}
use mathlib.Core.List.{[], _∷_}
use native.Mathlib.Omega.{arith}
use lib.ListN.{length}
use borrow.Author.Needs.{needs}
use borrow.Author.Tests.{not-false}
use Rattle·answer.proofs.Laid.{Laid}
use Rattle·marks.proofs.Counting.{ahead-le}
use Rattle·reading.proofs.Strides.{Stride}
use Rattle·jp2.specs.Rule.{plain, state, jp2}
use Rattle·jp2_whole·specs.specs.Quick.{Shift, Spanned, Laying, printing}
use Rattle·jp2_whole·proofs.proofs.Tokens.{shift-stride, prints-stride, spanned-marked, laid-printed, cellsOf, cells-length}
use Rattle·jp2_whole·proofs.proofs.Laying.{laying-start, laying-on, laying-one}
'''
order='add-if1 returns mark-requires loop-holds add-loop add-if2 same-length returns-2 shared-slice-read-if3 is-shift-requires same-length-2 returns-3 add-shifted-cell shared-slice-read-shifted-cell shifted-cell-requires mul-out slice-write-out add-at add-n loop-less loop-again slice-aggregate-ahead sub-ahead ahead-requires same-length-3 returns-4 cells-ahead-requires put-cells-requires add-at-2 add-n-2 loop-less-2 loop-again-2 same-length-4 returns-5'.split()
emit('put_shifts',imp,
'Inv-loop text out₀ start g2 at₀ n₀ marks out at n = Laying text start 6 g2 n₀ out₀ at 6 g2 n out',
'μ-loop text out₀ start g2 at₀ n₀ marks out at n = start + 128 - at',
[('add-if2',f'''-- many bytes follow
inside : (c : tie.In-loop Inv-loop μ-loop) → c .before .loop .at + 16 ≤ length (c{B(6)} .args .text .now)
inside c = omega (arith, c .loop-test .taken, c .before .before .before .if1 .left)'''),
('add-shifted-cell',f'''known : (c : tie.Else4 Inv-loop μ-loop) → Shift (c{B(11)} .args .text .now) (c{B(6)} .loop .at) (c{B(11)} .args .from .g2)
known c = c .before .is-shift .ensures (not-false _ (c .if4 .left))'''),
('mul-out',f'''shift :
    (c : tie.After-shifted-cell Inv-loop μ-loop) →
    let a = c{B(13)} .args in
    let l = c{B(8)} .loop in
    Stride jp2 (a .text .now) (l .at) (state 6 (a .from .g2) plain) (l .at + 3) (c .shifted-cell .result ∷ []) (state 6 (a .from .g2) plain)
shift c = rw (c .shifted-cell .ensures) (shift-stride (c{B(4)} .if3 .taken) (known (c .before .before)))'''),
('add-at-2',f'''-- behind printing bytes
abbrev W : Type 0
W = tie.After-slice-known2 Inv-loop μ-loop

abbrev size : W → ℕ
size c = c{B(6)} .ahead .result

few : (c : W) → size c ≤ 16
few c = omega (arith, c{B(6)} .ahead .ensures, ahead-le (c{B(13)} .mark .result) (c{B(12)} .loop .at - c{B(17)} .args .from .at))

span : (c : W) → let at = c{B(12)} .loop .at in Spanned printing (c{B(17)} .args .text .now) at (at + size c)
span c = let l = c{B(12)} .loop in
    spanned-marked (c{B(13)} .mark .ensures) (l .at - c{B(17)} .args .from .at) (c{B(6)} .ahead .ensures) (omega (arith, l .inv .goes .few)) (omega (arith, c{B(11)} .loop-test .taken)) (inside (c{B(11)}))

all : (c : W) → let a = c{B(17)} .args in let l = c{B(12)} .loop in
    Laying (a .text .now) (a .from .at) 6 (a .from .g2) (a .from .n) (a .out .now) (l .at + size c) 6 (a .from .g2) (l .n + size c) (c .before .before .put-cells .last .1 .0)
all c = let a = c{B(17)} .args in
    let l = c{B(12)} .loop in
    let e : length (cellsOf (a .text .now) (l .at) (l .at + size c)) ≡ size c = cells-length (a .text .now) (l .at) (l .at + size c) (span c .within) ∙ omega arith in
    rw e at
    (laying-on (l .inv) (prints-stride (size c) (a .from .g2) (span c)) (laid-printed (c{B(4)} .cells-ahead .ensures) (span c) (few c) (c .before .before .put-cells .ensures) (l .inv .fits))
    (omega (arith, e, few c, c{B(10)} .if2 .left)))'''),
],
{
 'add-if1':f'omega (arith, c{B(2)} .pre .0, c{B(2)} .good)',
 'returns':f'laying-start (c{B(3)} .pre .0) (c{B(3)} .pre .1)',
 'loop-holds':f'laying-start (c{B(4)} .pre .0) (c{B(4)} .pre .1)',
 'add-loop':f'omega (arith, c{B(2)} .if1 .left, c{B(5)} .good)',
 'add-if2':f'omega (arith, c .before .loop .inv .fits, c .before .loop .inv .laid .same, c{B(6)} .good)',
 'same-length':'c .before .before .loop .inv .laid .same',
 'returns-2':f'rw (c{B(7)} .pre .2) (c .before .before .loop .inv)',
 'shared-slice-read-if3':'omega (arith, inside (c .before .before))',
 'is-shift-requires':'omega (arith, inside (c .before .before .before))',
 'same-length-2':f'c{B(6)} .loop .inv .laid .same',
 'returns-3':f'rw (c{B(11)} .pre .2) (c{B(6)} .loop .inv)',
 'add-shifted-cell':f'omega (arith, known c .within, c{B(11)} .good)',
 'shared-slice-read-shifted-cell':'known (c .before) .within',
 'mul-out':f'omega (arith, c{B(6)} .if2 .left, c{B(8)} .loop .inv .laid .same, c{B(13)} .good)',
 'slice-write-out':f'omega (arith, c{B(6)} .if2 .left)',
 'add-at':f'omega (arith, known (c .before .before) .within, c{B(13)} .good)',
 'add-n':f'omega (arith, c{B(6)} .if2 .left, c{B(8)} .loop .inv .laid .same, c{B(13)} .good)',
 'loop-less':f'omega (arith, c{B(7)} .loop-test .taken)',
 'loop-again':f'laying-one (c{B(8)} .loop .inv) (shift c) (omega (arith, c{B(6)} .if2 .left))',
 'sub-ahead':f'omega (arith, c{B(5)} .loop .inv .goes .few)',
 'same-length-3':f'c{B(7)} .loop .inv .laid .same',
 'returns-4':f'rw (c{B(12)} .pre .2) (c{B(7)} .loop .inv)',
 'cells-ahead-requires':f'inside (c{B(6)})',
 'put-cells-requires':f'(c .before .cells-ahead .ensures .size, omega (arith, c{B(7)} .if2 .left))',
 'add-at-2':f'omega (arith, few c, inside (c{B(11)}), c{B(17)} .good)',
 'add-n-2':f'omega (arith, few c, c{B(10)} .if2 .left, c{B(12)} .loop .inv .laid .same, c{B(17)} .good)',
 'loop-less-2':f'omega (arith, c{B(5)} .if5 .left, c{B(11)} .loop-test .taken)',
 'loop-again-2':'all c',
 'same-length-4':'c .before .loop .inv .laid .same',
 'returns-5':f'rw (c{B(6)} .pre .2) (c .before .loop .inv)',
},order)
# put_token
p=d+'quick/put_token/Proof.antt'; s=open(p).read()
if 'put-shift-requires' not in s:
    i=s.index('known : (c : tie.Then2)'); j=s.index('after-row-requires : tie')
    s=s[:i]+f'''put-shift-requires : tie.Need-put-shift-requires
put-shift-requires c κs = (c .before .before .is-shift .ensures (c .before .if2 .taken), c{B(3)} .if1 .taken, place (c{B(7)}))

same-length : tie.Need-same-length
same-length c = c .before .before .put-shift .ensures .laid .same

returns : tie.Need-returns
returns c =
    let p = c .before .before .put-shift .ensures in
    (p, omega (arith, c{B(10)} .pre .byte, c{B(10)} .pre .places, p .laid .same, p .goes .few, p .count, p .fits))

'''+s[j:]
    s=s.replace('mul-out-2','mul-out').replace('slice-write-out-2','slice-write-out').replace('add-t26','add-t22').replace('add-t29','add-t25')
    i=s.index('    (tie.spec\n'); 
    s=s[:i]+'''    (tie.spec
    shared-slice-read-b
    is-shift-requires
    put-shift-requires
    same-length
    returns
    after-row-requires
    returns-2
    is-single-requires
    is-plain-requires
    put-single-requires
    same-length-2
    returns-3
    returns-4
    is-pair-requires
    add-pair-cell
    shared-slice-read-pair-cell
    pair-cell-requires
    mul-out
    slice-write-out
    add-t22
    add-t25
    same-length-3
    returns-5
    returns-6)
'''
    s=s.replace('Tokens.{pair-stride, shift-stride}','Tokens.{pair-stride}')
    open(p,'w').write(s)
order=[re.match(r'(\S+) :',l).group(1) for l in open('/tmp/lg/sk_put_shift.antt') if re.match(r'\S+ : tie.Need',l)]
emit('put_shift','''
use Prim.Native.Nat.{_+_, _<_, _≤_}
use native.Mathlib.Omega.{arith}
use mathlib.Core.List.{[], _∷_}
use lib.ListN.{length, set, length-set}
use borrow.Author.Needs.{needs}
use Rattle·jp2_whole·specs.specs.Quick.{Laying}
use Rattle·jp2_whole·proofs.proofs.Tokens.{shift-stride}
use Rattle·jp2_whole·proofs.proofs.Laying.{laying-start, laying-one, laying-more}
''',None,None,[('put-shifts-requires',f'''-- its cell is put
one :
    (c : tie.After-shifted-cell) →
    let a = c{B(4)} .args in
    let f = a .from in
    Laying (a .text .now) (f .at) (f .g0) (f .g2) (f .n) (a .out .now) (f .at + 3) (f .g0) (f .g2) (f .n + 1) (set (a .out .now) (f .n) (c .shifted-cell .result))
one c =
    let p = c{B(4)} .pre in
    laying-one (laying-start (omega (arith, p .0 .within)) (omega (arith, p .2))) (rw (c .shifted-cell .ensures) (shift-stride (p .1) (p .0))) (p .2)''')],
{
 'put-shifts-requires':f'(omega (arith, c{B(6)} .pre .0 .within), simp length-set (omega (arith, c{B(6)} .pre .2)), c .before .if1 .taken)',
 'same-length':f'laying-more (one (c{B(5)})) (c .before .before .put-shifts .ensures) .laid .same',
 'returns':f'laying-more (one (c{B(5)})) (c .before .before .put-shifts .ensures)',
 'returns-2':'one (c .before)',
},order)
