use mathlib.Core.Path.{sym}
use lib.Seq.{length-take-le}
use Rattle·bench_calls·proofs.proofs.Savings.{first-saved, second-saved, first-fits, second-fits}
%%slice-aggregate-save-on
let a = @args in
let x = @bench-at in
sym
(length-take-le (x .result .length) (a .text0 .now)
(first-fits (a .b) (a .bench) (x .result) (a .text0 .now) (x .ensures) (@if1 .taken) (@pre .0)))
%%slice-aggregate-save-on-2
let a = @args in
let x = @bench-at in
sym
(length-take-le (x .result .length) (a .text1 .now)
(second-fits (a .b) (a .bench) (x .result) (a .text1 .now) (x .ensures) (@if1 .left) (@pre .1)))
%%returns
let a = @args in
let x = @bench-at in
let s = @save-on in
rw (@first-back .ensures)
(first-saved (a .b) (a .bench) (a .text0 .now) (a .text1 .now) (a .arrived .now) (a .out .now) _ (x .result) (s .result)
(x .ensures) (s .ensures .0) (s .ensures .1) (@if1 .taken) (s .ensures .2))
%%returns-2
let a = @args in
let x = @bench-at in
let s = @save-on2 in
rw (@second-back .ensures)
(second-saved (a .b) (a .bench) (a .text0 .now) (a .text1 .now) (a .arrived .now) (a .out .now) _ (x .result) (s .result)
(x .ensures) (s .ensures .0) (s .ensures .1) (@if1 .left) (s .ensures .2))
