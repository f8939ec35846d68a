use native.Mathlib.Omega.{arith}
use mathlib.Core.Path.{refl}
use Prim.Native.Nat.{_-_}
use Rattle·answer.proofs.Once.{limit-small}
use Rattle·bench_calls·proofs.proofs.Closing.{Going, begin, turn-fits, turn, ended}
%%Inv-loop
Inv-loop h₀ used mine from at₀ to₀ h at to = Going mine from used h₀ h at to
%%μ-loop
μ-loop h₀ used mine from at₀ to₀ h at to = used - at
%%loop-holds
let a = @args in
begin (a .mine) (a .from) (a .used) (a .history .now) (@pre .1) (@pre .0) (@pre .4)
%%size-at-requires
let a = @args in
let l = @loop in
let f = turn-fits (a .mine) (a .from) (a .used) (a .history .now) (@pre .1) (@pre .3) (l .inv) (omega arith) _ refl in
omega (arith, f, l .inv .long, @pre .1)
%%keep-other-requires
let a = @args in
let l = @loop in
let f = turn-fits (a .mine) (a .from) (a .used) (a .history .now) (@pre .1) (@pre .3) (l .inv) (omega arith)
(@size-at .result) (@size-at .ensures) in
(l .inv .behind, omega (arith, f, l .inv .long, @pre .1), omega (arith, @size-at .ensures))
%%add-at
let a = @args in
let l = @loop in
let f = turn-fits (a .mine) (a .from) (a .used) (a .history .now) (@pre .1) (@pre .3) (l .inv) (omega arith)
(@size-at .result) (@size-at .ensures) in
omega (arith, f, @pre .1, @pre .2, limit-small)
%%loop-less
let a = @args in
let l = @loop in
let f = turn-fits (a .mine) (a .from) (a .used) (a .history .now) (@pre .1) (@pre .3) (l .inv) (omega arith)
(@size-at .result) (@size-at .ensures) in
omega (arith, f, @size-at .ensures)
%%loop-again
let a = @args in
let l = @loop in
turn (a .mine) (a .from) (a .used) (a .history .now) (@pre .1) (@pre .3) (l .inv) (omega arith) (@size-at .result)
(@size-at .ensures) _ (@keep-other .result) (@keep-other .ensures .0) (@keep-other .ensures .1)
%%same-length
@loop .inv .long
%%returns
let a = @args in
let l = @loop in
ended (a .mine) (a .from) (a .used) (a .history .now) (@pre .1) (@pre .3) (l .inv) (omega arith)
