# make: the library for this machine, and the printing program on an example. The rest is below, a word for each.
PREFIX = /usr/local
DESTDIR =

.PHONY: all library program test bench install clean

all: library program

library:
	./build

# after the library: both prove the crates below
program: library
	./draw examples/district.rec

test:
	.ci/run

bench:
	second/speed/run

# the library, its header and what pkg-config tells of them, below PREFIX (in DESTDIR, where a package is made)
install: library
	prefix=$$(realpath -m "$(PREFIX)") && root="$(DESTDIR)$$prefix" && \
	install -d "$$root/lib/pkgconfig" "$$root/include" && \
	install -m 644 target/native/libpistonwool.a "$$root/lib/" && \
	install -m 644 include/pistonwool.h "$$root/include/" && \
	sed -e "s|@PREFIX@|$$prefix|" -e "s|@VERSION@|$$(cat VERSION)|" pistonwool.pc.in | \
	install -m 644 /dev/stdin "$$root/lib/pkgconfig/pistonwool.pc"

clean:
	rm -rf target crates/*/out
