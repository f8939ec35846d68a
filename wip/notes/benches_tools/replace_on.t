use native.Mathlib.Omega.{arith}
use mathlib.Core.Path.{sym, _∙_}
use Rattle·bench_calls·proofs.proofs.Replacings.{beyond, unwritable, writable}
%%returns
let a = @args in
rw (@stays .ensures)
(beyond (a .b) (a .mine) (a .used) (a .p) (a .place) (a .count) (a .cells .now) (a .text .now) (a .history .now)
(@pre .0 .text-filled .fits) (omega (arith, @if1 .taken)))
%%returns-2
let a = @args in
rw (@stays2 .ensures)
(beyond (a .b) (a .mine) (a .used) (a .p) (a .place) (a .count) (a .cells .now) (a .text .now) (a .history .now)
(@pre .0 .text-filled .fits) (omega (arith, @if1 .left, @if2 .taken)))
%%returns-3
let a = @args in
let f = @first-unwritable in
rw (@stays3 .ensures)
(unwritable (a .b) (a .mine) (a .used) (a .p) (a .place) (a .count) (a .cells .now) (a .text .now) (a .history .now)
(@pre .0 .text-filled .fits) (omega (arith, @if1 .left, @if2 .left)) (f .result) (f .ensures)
(omega (arith, @if3 .taken)))
%%replace-fitting-requires
(omega (arith, @if1 .left, @if2 .left), @pre .0, @pre .1)
%%returns-4
let a = @args in
let f = @first-unwritable in
@replace-fitting .ensures
∙ writable (a .b) (a .mine) (a .used) (a .p) (a .place) (a .count) (a .cells .now) (a .text .now) (a .history .now)
(@pre .0 .text-filled .fits) (omega (arith, @if1 .left, @if2 .left)) (f .result) (f .ensures)
(omega (arith, @if3 .left))
