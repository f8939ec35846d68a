use mathlib.Core.Path.{_∙_}
use native.Mathlib.Omega.{arith}
use Rattle·bench_calls·proofs.proofs.Turns.{undo-none, undo-some}
%%returns
let a = @args in
rw (@stays .ensures) (undo-none (a .b) (a .used) (a .p) (a .text .now) (a .history .now) (@if1 .taken))
%%add-at
omega (arith, @pre (omega (arith, @if1 .left)) .words)
%%move-at-requires
@pre (omega (arith, @if1 .left))
%%returns-2
let a = @args in
@move-at .ensures ∙ undo-some (a .b) (a .used) (a .p) (a .text .now) (a .history .now) (@if1 .left)
