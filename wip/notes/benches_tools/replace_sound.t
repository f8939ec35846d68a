use mathlib.Core.Path.{sym, ap, _∙_}
use lib.ListN.{length}
use borrow.Author.Tests.{ltb-false}
use Rattle·answer.specs.Answer.{limit}
use Rattle·benches.specs.Words.{first, second}
use Rattle·benches.specs.Benches.{State, stateOf}
use Rattle·bench_calls·specs.specs.Leaving.{placed}
use Rattle·bench_calls·proofs.proofs.Replaced.{first-shared, second-shared, first-replaced, second-replaced}
%%replace-on-requires
let a = @args in
let t : State = stateOf (a .b) (a .text0 .now) (a .text1 .now) (a .history .now) in
(first-shared t (a .bench) (a .p) (@pre .0) (@if1 .taken), ltb-false limit (length (a .cells .now)) (@pre .1))
%%replace-on-requires-2
let a = @args in
let t : State = stateOf (a .b) (a .text0 .now) (a .text1 .now) (a .history .now) in
(second-shared t (a .bench) (a .p) (@pre .0) (@if1 .left), ltb-false limit (length (a .cells .now)) (@pre .1))
%%returns
let a = @args in
let t : State = stateOf (a .b) (a .text0 .now) (a .text1 .now) (a .history .now) in
rw (@first-back .ensures)
(ap (placed t first) (@replace-on .ensures)
∙ sym
(first-replaced t (a .bench) (a .p) (@pre .0) (a .place) (a .count) (a .cells .now) (@pre .1) (@if1 .taken)))
%%returns-2
let a = @args in
let t : State = stateOf (a .b) (a .text0 .now) (a .text1 .now) (a .history .now) in
rw (@second-back .ensures)
(ap (placed t second) (@replace-on2 .ensures)
∙ sym
(second-replaced t (a .bench) (a .p) (@pre .0) (a .place) (a .count) (a .cells .now) (@pre .1) (@if1 .left)))
