use mathlib.Core.Path.{sym, _∙_}
use Rattle·benches.specs.Benches.{State, stateOf}
use Rattle·bench_calls·proofs.proofs.Turns.{step-unfit}
%%step-sound-requires
sym (@judge .ensures) ∙ @found2 .given .1
%%returns
let a = @args in
let t : State = stateOf (a .b) (a .text0 .now) (a .text1 .now) (a .history .now) in
rw (@refused .ensures) (sym (step-unfit t (a .bench) (a .forward) (@judge .ensures) (@found .given .1)))
