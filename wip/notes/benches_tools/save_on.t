use mathlib.Core.Path.{refl}
use Rattle·bench_calls·proofs.proofs.Savings.{saved-bench}
%%returns
let a = @args in
let s = @save-sound in
(
  rw (s .ensures .0, @page-of .ensures) (saved-bench (a .b) (s .result .answer)),
  refl,
  rw (@page-of .ensures) at (s .ensures .1),
)
