# The library for hosts in other languages. The proofs, and the tests of the library itself, are the gate's: .ci/run.
#
#   make                      target/staticlib/libqalithonda.a, target/shared/libqalithonda.so and target/examples/where
#   make programs             the listers, desk and same_letter, in target/bin
#   make test-bindings        the C examples, what the archive needs, and the tests of the Rust and Python bindings
#   make install PREFIX=..    the header and both libraries, in PREFIX/include and PREFIX/lib
#   make clean                removes what make has built; what was proved stays

PREFIX = /usr/local
PYTHON = python3

archive = target/staticlib/libqalithonda.a
shared = target/shared/libqalithonda.so
header = include/qalithonda.h
sources = crates.txt $(shell find crates -name '*.rt' -o -name '*.antt')
strict = -Wall -Wextra -pedantic -Werror -Iinclude

.DELETE_ON_ERROR:
.PHONY: all library programs test-bindings test-c test-rust test-python install clean

all: library target/examples/where

library: $(archive) $(shared)

# Each of these is an object of its own in the archive (crates/NAME/src/lib.rt says why).
objects = qalithonda qalithonda_compare qalithonda_benches qalithonda_subject

$(archive): $(sources)
	for crate in $(objects); do (cd crates/$$crate && rt lib) || exit 1; done
	mkdir -p $(@D) && rm -f $@
	cd $(@D) && for crate in $(objects); do \
	    ar x '$(CURDIR)'/crates/$$crate/out/lib$$crate.a $$crate.o && ar q $(@F) $$crate.o && rm $$crate.o || exit 1; \
	done

# The archive shows no other names than qalithonda_.., so neither does this.
$(shared): $(archive)
	mkdir -p $(@D)
	$(CC) -shared -o $@ -Wl,-soname,$(@F) -Wl,--no-undefined -Wl,--whole-archive $< -Wl,--no-whole-archive

# `rt run` proves, builds and runs a program, here with no words and no input; each then ends with the status 0.
programs: $(addprefix target/bin/,utf7_lister jp2_lister mailbox_lister same_letter desk)
target/bin/%: $(sources)
	cd crates/$* && rt run </dev/null >/dev/null
	mkdir -p $(@D) && cp crates/$*/out/$* $@

test-bindings: test-c test-rust test-python

target/examples/%: examples/%.c $(header) $(archive)
	mkdir -p $(@D)
	$(CC) -std=c99 $(strict) $< $(archive) -o $@

target/examples/%_cxx: examples/%.c $(header) $(archive)
	mkdir -p $(@D)
	$(CXX) -std=c++11 $(strict) -x c++ $< -x none $(archive) -o $@

# The examples in C99, and in C++ where there is a compiler for it: what they print is examples/*.txt. And what the archive
# needs from outside, which a host must have.
examples = target/examples/worked_page target/examples/two_benches target/examples/where
test-c: $(examples) $(if $(shell command -v $(CXX) 2>/dev/null),$(examples:=_cxx))
	for built in $^; do \
	    name=$$(basename $${built%_cxx}); \
	    if [ -f examples/$$name.sh ]; then sh examples/$$name.sh $$built; else $$built; fi >$$built.out && \
	    diff examples/$$name.txt $$built.out || exit 1; \
	done
	test "$$(nm -u $(archive) | awk 'NF == 2 { print $$2 }' | sort -u | xargs)" = 'memcpy memset'

test-rust: $(archive)
	QALITHONDA_LIB='$(CURDIR)/target/staticlib' cargo test --quiet --offline --locked \
	    --manifest-path bindings/rust/Cargo.toml --target-dir target/bindings/rust

test-python: $(shared)
	QALITHONDA_LIB='$(CURDIR)/target/shared' $(PYTHON) -B -m unittest discover -s bindings/python

install: library
	install -d '$(DESTDIR)$(PREFIX)/include' '$(DESTDIR)$(PREFIX)/lib'
	install -m 644 $(header) '$(DESTDIR)$(PREFIX)/include'
	install -m 644 $(archive) '$(DESTDIR)$(PREFIX)/lib'
	install -m 755 $(shared) '$(DESTDIR)$(PREFIX)/lib'

clean:
	rm -rf target/staticlib target/bin target/shared target/examples target/bindings
