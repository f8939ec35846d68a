use native.Mathlib.Omega.{arith}
use mathlib.Core.Path.{ap, _∙_}
use mathlib.Core.List.{List, _∷_, _++_}
use Prim.Native.Nat.{ℕ}
use Rattle·ledger.specs.Words.{wordsOf, pad, zeros}
%%close-gap-requires
(@pre .0, @pre .1 .fits, @pre .2, @pre .3, @pre .4)
%%put-record-requires
let p = @pre in
let e = @close-gap .ensures in
(
  record {
    fits = omega (arith, p .1 .fits, e .long);
    blank = ap zeros (e .rest) ∙ p .1 .blank;
  },
  e .within,
  omega (arith, e .many, e .long, p .5),
  p .3,
  p .6,
  p .7,
  p .8,
)
%%returns
let a = @args in
let e = @close-gap .ensures in
@put-record .ensures
∙ (λ i.
pad (e .long i)
(e .is i ++ a .mine ∷ wordsOf (record { place = a .place; removed = a .removed .now; added = a .added .now })))
