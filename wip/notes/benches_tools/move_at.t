use mathlib.Core.Path.{ap, _∙_}
use Prim.Native.Nat.{_-_}
use native.Mathlib.Omega.{arith}
use lib.ListN.{length, take, drop, length-take, length-drop}
use Rattle·page.specs.declared.Change.{Change}
use Rattle·bench_calls·specs.specs.Leaving.{leavesOf, editedTo}
use Rattle·bench_calls·specs.specs.Steps.{changed, Fits}
%%change-at-requires
@pre .words
%%mul-accept part-accept-start
let a = @args in
let q = @change-at .result in
let m : Fits (a .b) q (a .text .now) (a .history .now) = rw (@change-at .ensures) (@pre .fits) in
omega (arith, m .part, m .whole)
%%sub-accept
let a = @args in
let q = @change-at .result in
let m : Fits (a .b) q (a .text .now) (a .history .now) = rw (@change-at .ensures) (@pre .fits) in
m .part
%%part-accept-end
let a = @args in
let q = @change-at .result in
let m : Fits (a .b) q (a .text .now) (a .history .now) = rw (@change-at .ensures) (@pre .fits) in
m .whole
%%accept-requires
let a = @args in
let q = @change-at .result in
let m : Fits (a .b) q (a .text .now) (a .history .now) = rw (@change-at .ensures) (@pre .fits) in
let part = length-take (q .to - q .from) (drop (q .from) (a .history .now)) in
let rest = length-drop (q .from) (a .history .now) in
(m .place, m .filled, omega (arith, m .room, m .part, m .whole))
%%returns
let a = @args in
let e = @accept .ensures in
(λ i. leavesOf (e .0 i) (e .1 i) (a .history .now))
∙ ap
(λ (q : Change).
editedTo (a .b) (length (a .text .now)) (changed q (a .history .now) (take (a .b .length) (a .text .now))) (a .used)
(a .standing) (a .b .saved) (a .history .now))
(@change-at .ensures)
