use native.Mathlib.Omega.{arith}
use Prim.Native.Nat.{_+_}
use mathlib.Core.Path.{sym, _∙_}
use borrow.Author.Tests.{le-leb, lt-leb}
use lib.ListN.{length}
use Rattle·page·specs.specs.Steps.{changeFound}
%%returns
unfolding changeFound
let a = @args in
rw (lt-leb (a .at + 3) (length (a .history .now)) (omega arith)) (@no-change .ensures)
%%returns-2
unfolding changeFound
let a = @args in
rw (lt-leb (a .at + 3) (length (a .history .now)) (omega arith)) (@no-change2 .ensures)
%%returns-3
unfolding changeFound
let a = @args in
rw (
  le-leb (a .at + 3) (length (a .history .now)) (omega arith),
  @if3 .taken,
  sym (@wide .ensures .0),
  sym (@wide2 .ensures .0),
  sym (@wide3 .ensures .0),
)
%%returns-4
unfolding changeFound
let a = @args in
rw (
  le-leb (a .at + 3) (length (a .history .now)) (omega arith),
  @if3 .left,
  sym (@wide .ensures .0),
  sym (@wide2 .ensures .0),
  sym (@wide3 .ensures .0),
)
