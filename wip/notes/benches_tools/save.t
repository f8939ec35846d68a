use mathlib.Core.Path.{sym, _∙_}
use Rattle·editor.specs.Ledger.{save}
use Rattle·benches.specs.Benches.{State, stateOf}
use Rattle·bench_records.proofs.Found.{call-unfit}
use Rattle·bench_calls·proofs.proofs.Savings.{texts-fit, saved-given, save-long}
%%returns
let a = @args in
rw (@refused .ensures, @too-long .ensures)
(sym
(save-long (a .b) (a .text0 .now) (a .text1 .now) (a .history .now) (a .bench) (a .arrived .now) (a .out .now)
(sym (@over-limit .ensures) ∙ @if1 .taken)))
%%save-sound-requires
let a = @args in
texts-fit (a .b) (a .text0 .now) (a .text1 .now) (a .history .now) (a .bench) (@judge .ensures) (@enum-told .given .1)
%%returns-2
let a = @args in
let t : State = stateOf (a .b) (a .text0 .now) (a .text1 .now) (a .history .now) in
rw (@refused2 .ensures)
(sym
(call-unfit t (save (a .arrived .now) (a .out .now)) (a .bench) (sym (@over-limit .ensures) ∙ @if1 .left)
(@judge .ensures) (@found .given .1)))
%%returns-3
let a = @args in
let s = @save-sound in
saved-given (a .b) (a .text0 .now) (a .text1 .now) (a .history .now) (a .bench) (@judge .ensures) (@enum-told .given .1)
(a .arrived .now) (a .out .now) _ (s .result) (sym (@over-limit .ensures) ∙ @if1 .left) (s .ensures .0) (s .ensures .1)
