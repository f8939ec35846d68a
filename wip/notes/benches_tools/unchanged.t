use mathlib.Core.Path.{sym}
use Rattle·benches.specs.Benches.{State, stateOf}
use Rattle·bench_records.proofs.Found.{ask-unfit}
use Rattle·bench_calls·proofs.proofs.Savings.{asked-given}
%%returns
let a = @args in
let t : State = stateOf (a .b) (a .text0 .now) (a .text1 .now) (a .history .now) in
sym (ask-unfit t (a .bench) (@judge .ensures) (@found .given .1))
%%returns-2
let a = @args in
rw (@told .ensures, @page-of .ensures, @bench-at .ensures)
(sym
(asked-given (a .b) (a .text0 .now) (a .text1 .now) (a .history .now) (a .bench) (@judge .ensures)
(@enum-told .given .1)))
