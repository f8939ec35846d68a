use mathlib.Core.Path.{sym, ap, _∙_}
use Rattle·benches.specs.Words.{first, second}
use Rattle·benches.specs.Benches.{State, stateOf}
use Rattle·bench_calls·specs.specs.Leaving.{placed}
use Rattle·bench_calls·proofs.proofs.Turns.{first-stepped, second-stepped, first-steppable, second-steppable}
%%step-on-requires
let a = @args in
let t : State = stateOf (a .b) (a .text0 .now) (a .text1 .now) (a .history .now) in
first-steppable t (a .bench) (a .p) (@pre) (a .forward) (@if1 .taken)
%%step-on-requires-2
let a = @args in
let t : State = stateOf (a .b) (a .text0 .now) (a .text1 .now) (a .history .now) in
second-steppable t (a .bench) (a .p) (@pre) (a .forward) (@if1 .left)
%%returns
let a = @args in
let t : State = stateOf (a .b) (a .text0 .now) (a .text1 .now) (a .history .now) in
rw (@first-back .ensures)
(ap (placed t first) (@step-on .ensures)
∙ sym (first-stepped t (a .bench) (a .p) (@pre) (a .forward) (@if1 .taken)))
%%returns-2
let a = @args in
let t : State = stateOf (a .b) (a .text0 .now) (a .text1 .now) (a .history .now) in
rw (@second-back .ensures)
(ap (placed t second) (@step-on2 .ensures)
∙ sym (second-stepped t (a .bench) (a .p) (@pre) (a .forward) (@if1 .left)))
