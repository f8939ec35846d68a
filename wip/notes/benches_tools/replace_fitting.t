use native.Mathlib.Omega.{arith}
use Rattle·answer.proofs.Once.{limit-small}
use Rattle·bench_calls·proofs.proofs.Replacings.{no-room, no-words, length-part, replaced-is}
%%returns
let a = @args in
let p = @pre in
rw (@stays .ensures)
(no-room (a .b) (a .mine) (a .used) (a .p) (a .place) (a .count) (a .cells .now) (a .text .now) (a .history .now)
(p .1 .text-filled .fits) (p .0) (omega arith))
%%sub-need
@pre .1 .spare
%%add-need add-need-2 add-need-3
let p = @pre in
omega (arith, p .0, p .1 .text-filled .fits, p .1 .text-small, p .1 .filled .fits, p .1 .small, p .2, limit-small)
%%returns-2
let a = @args in
let p = @pre in
rw (@stays2 .ensures)
(no-words (a .b) (a .mine) (a .used) (a .p) (a .place) (a .count) (a .cells .now) (a .text .now) (a .history .now)
(p .1 .text-filled .fits) (p .0) (omega (arith, @if1 .left)) (omega (arith, @if2 .taken)))
%%record-step-requires
let a = @args in
let p = @pre in
let s = p .1 in
let k = @if2 .left in
let n = length-part (a .b) (a .mine) (a .used) (a .p) (a .place) (a .count) (a .cells .now) (a .text .now)
(a .history .now) (s .text-filled .fits) (p .0) in
(
  s .from,
  s .filled,
  s .small,
  s .one,
  s .tiles,
  omega (arith, s .closes, k, n),
  omega (arith, p .0, s .text-filled .fits, s .text-small, limit-small),
  omega (arith, n, p .0, s .text-filled .fits, s .text-small, limit-small),
  omega (arith, p .2, limit-small),
)
%%add-accept
omega (arith, @pre .1 .few, limit-small)
%%accept-requires
let p = @pre in
(p .0, p .1 .text-filled, omega (arith, @if1 .left))
%%returns-3
let a = @args in
let p = @pre in
let e = @accept in
let h = @record-step in
replaced-is (a .b) (a .mine) (a .used) (a .p) (a .place) (a .count) (a .cells .now) (a .text .now) (a .history .now)
(p .1 .text-filled .fits) (p .0) (e .result) _ _ (omega (arith, @if1 .left)) (omega (arith, @if2 .left)) _
(@mark-left .ensures) (e .ensures .0) (e .ensures .1) (h .ensures)
