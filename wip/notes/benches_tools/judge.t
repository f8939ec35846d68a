use mathlib.Core.Path.{_≡_, sym, ap, _∙_}
use mathlib.Core.Bool.{false}
use native.Mathlib.Omega.{arith}
use lib.ListN.{length}
use borrow.Author.Tests.{ltb-false}
use Rattle·answer.specs.Answer.{limit}
use Rattle·benches.specs.Benches.{State, stateOf}
use Rattle·bench_records·specs.specs.Judging.{soundBy}
use Rattle·bench_records·proofs.proofs.Judging.{long-first, long-second, long-history, nobody, named}
%%returns
let a = @args in
let t : State = stateOf (a .b) (a .text0 .now) (a .text1 .now) (a .history .now) in
long-first t (a .bench) (@too-long .result) (@too-long .ensures) (sym (@over-limit .ensures) ∙ @if1 .taken)
%%returns-2
let a = @args in
let t : State = stateOf (a .b) (a .text0 .now) (a .text1 .now) (a .history .now) in
long-second t (a .bench) (@too-long2 .result) (@too-long2 .ensures) (sym (@over-limit .ensures) ∙ @if1 .left)
(sym (@over-limit2 .ensures) ∙ @if2 .taken)
%%returns-3
let a = @args in
let t : State = stateOf (a .b) (a .text0 .now) (a .text1 .now) (a .history .now) in
long-history t (a .bench) (@too-long3 .result) (@too-long3 .ensures) (sym (@over-limit .ensures) ∙ @if1 .left)
(sym (@over-limit2 .ensures) ∙ @if2 .left) (sym (@over-limit3 .ensures) ∙ @if3 .taken)
%%returns-4
let a = @args in
let t : State = stateOf (a .b) (a .text0 .now) (a .text1 .now) (a .history .now) in
nobody t (a .bench) (sym (@over-limit .ensures) ∙ @if1 .left) (sym (@over-limit2 .ensures) ∙ @if2 .left)
(sym (@over-limit3 .ensures) ∙ @if3 .left) (@if4 .taken)
%%survey-requires
let a = @args in
(
  ltb-false limit (length (a .text0 .now)) (sym (@over-limit .ensures) ∙ @if1 .left),
  ltb-false limit (length (a .text1 .now)) (sym (@over-limit2 .ensures) ∙ @if2 .left),
  ltb-false limit (length (a .history .now)) (sym (@over-limit3 .ensures) ∙ @if3 .left),
  omega (arith, @if4 .left),
)
%%returns-5
let a = @args in
let t : State = stateOf (a .b) (a .text0 .now) (a .text1 .now) (a .history .now) in
@sound-by .ensures ∙ ap soundBy (@survey .ensures)
∙ named t (a .bench) (sym (@over-limit .ensures) ∙ @if1 .left) (sym (@over-limit2 .ensures) ∙ @if2 .left)
(sym (@over-limit3 .ensures) ∙ @if3 .left) (omega (arith, @if4 .left))
