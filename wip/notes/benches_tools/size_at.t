use mathlib.Core.Path.{sym}
%%returns
rw (sym (@wide .ensures .0), sym (@wide2 .ensures .0))
