import sys; sys.path.insert(0,'/tmp/h3'); import lib
for c in sys.argv[1:]:
    S=lib.parse(c); lib.alone(c,S)
