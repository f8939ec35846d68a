use borrow.Author.Tests.{eq-eqb, ne-eqb}
%%returns
let a = @args in
rw (eq-eqb (a .bench) 0 (@if1 .taken))
%%returns-2
let a = @args in
rw (ne-eqb (a .bench) 0 (@if1 .left))
