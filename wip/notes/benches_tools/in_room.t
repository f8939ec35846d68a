use mathlib.Core.Path.{_≡_, sym, _∙_}
use borrow.Author.Tests.{eq-eqb, ne-eqb, lt-ltb, le-ltb}
use native.Mathlib.Omega.{arith}
use Rattle·answer.specs.Answer.{inNumbers}
%%returns
let a = @args in
rw (ne-eqb (inNumbers (a .answer) .number) 9 (λ z. @if1 .taken (@number .ensures ∙ z)))
%%returns-2
let a = @args in
rw (
  eq-eqb (inNumbers (a .answer) .number) 9 (sym (@number .ensures) ∙ @if1 .left),
  lt-ltb (a .room) (inNumbers (a .answer) .place) (omega (arith, @place .ensures, @if2 .taken)),
)
%%returns-3
let a = @args in
rw (
  eq-eqb (inNumbers (a .answer) .number) 9 (sym (@number .ensures) ∙ @if1 .left),
  le-ltb (a .room) (inNumbers (a .answer) .place) (omega (arith, @place .ensures, @if2 .left)),
  @place .ensures,
)
