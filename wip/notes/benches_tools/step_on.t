%%redo-next-requires
rw (@if1 .taken) at (@pre)
%%undo-last-requires
rw (@if1 .left) at (@pre)
%%returns
rw (@if1 .taken) (@redo-next .ensures)
%%returns-2
rw (@if1 .left) (@undo-last .ensures)
