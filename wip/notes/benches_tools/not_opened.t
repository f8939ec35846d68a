%%returns
rw (@no-bench .ensures, @no-bench2 .ensures)
