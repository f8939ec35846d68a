use mathlib.Core.Path.{_∙_}
use Rattle·splice.proofs.Splices.{used-after, filled-after}
%%returns
let a = @args in
let p = @pre in
let e = @splice-in .ensures in
let n = e .0 ∙ used-after (a .text .now) (a .cells .now) (a .b .length) (a .place) (a .count) (p .0) (p .1 .fits) (p .2) in
(
  rw n,
  e .1
  ∙ filled-after (a .text .now) (a .cells .now) (a .b .length) (a .place) (a .count) (p .0) (p .1 .fits) (p .2) (p .1),
)
