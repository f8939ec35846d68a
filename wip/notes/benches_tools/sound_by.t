%%returns
rw (@enum-told .given .1)
%%returns-2
rw (@found .given .1)
