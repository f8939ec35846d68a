use native.Mathlib.Omega.{arith}
use Rattle·answer.proofs.Once.{limit-small}
%%add-t5
omega (arith, @pre, limit-small)
%%returns
rw (@bench-of .ensures, @bench-of2 .ensures)
