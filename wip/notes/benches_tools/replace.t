use mathlib.Core.Path.{sym, _∙_}
use Rattle·editor.specs.Ledger.{replace}
use Rattle·benches.specs.Benches.{State, stateOf}
use Rattle·bench_records.proofs.Found.{call-unfit}
use Rattle·bench_calls·proofs.proofs.Replaced.{replace-long}
%%returns
let a = @args in
let t : State = stateOf (a .b) (a .text0 .now) (a .text1 .now) (a .history .now) in
rw (@refused .ensures, @too-long .ensures)
(sym
(replace-long t (a .bench) (a .place) (a .count) (a .cells .now) (sym (@over-limit .ensures) ∙ @if1 .taken)))
%%replace-sound-requires
(sym (@judge .ensures) ∙ @found2 .given .1, sym (@over-limit .ensures) ∙ @if1 .left)
%%returns-2
let a = @args in
let t : State = stateOf (a .b) (a .text0 .now) (a .text1 .now) (a .history .now) in
rw (@refused2 .ensures)
(sym
(call-unfit t (replace (a .place) (a .count) (a .cells .now)) (a .bench) (sym (@over-limit .ensures) ∙ @if1 .left)
(@judge .ensures) (@found .given .1)))
