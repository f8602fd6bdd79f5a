# The library for C. docs/C.md says how it is used.
#
#   make             proves the library and builds target/staticlib/libsagecruet.a, where a source is newer
#   make shared      makes target/staticlib/libsagecruet.so from it, for a language that loads a library as it runs
#   make install     puts the header, the library and a file for pkg-config under PREFIX, which is /usr/local;
#                    target/staticlib/libsagecruet.so too where it was made. DESTDIR is put before PREFIX
#   make uninstall   removes them there
#   make example     builds and runs examples/c/example.c
#   make help        prints these lines
#
#   make -C examples/c test     holds what the example prints to what it must print
#   make -C examples/c clean    removes what was built there; removing target/ removes all else that was built
#   tests/run c                 tests the library, the header, the Makefiles and the examples
#
# The library is for x86-64 Linux. On another processor `make shared` needs a compiler for x86-64: on Debian these are
# the packages gcc-x86-64-linux-gnu and libc6-dev-amd64-cross.

PREFIX ?= /usr/local
packages = gcc libc6-dev
ifneq ($(shell uname -m),x86_64)
CC = x86_64-linux-gnu-gcc
packages = gcc-x86-64-linux-gnu libc6-dev-amd64-cross
endif

archive = target/staticlib/libsagecruet.a
shared = target/staticlib/libsagecruet.so
sources := $(shell find crates.txt crates/*/src crates/*/specs crates/*/proofs -type f)
prefix = $(abspath $(PREFIX))
place = $(DESTDIR)$(prefix)

# A space would part the path in make and in the flags of pkg-config; these have a meaning to the shell, sed or pkg-config.
odd := ' " ` \ | & $$ \#
ifneq ($(filter install uninstall,$(MAKECMDGOALS)),)
ifneq ($(words $(prefix)):$(strip $(foreach letter,$(odd),$(findstring $(letter),$(prefix)))),1:)
$(error PREFIX has to be one path without spaces and without any of $(odd), and it is "$(PREFIX)")
endif
endif

# Another kit than the one of kit.txt is said, and tried. One build at a time in this folder: ./run takes the same lock.
$(archive): $(sources)
	@tools/kit || [ $$? -eq 1 ]
	@echo "make: the library is proved and built first, which takes some minutes" >&2
	@rm -f $@ && mkdir -p $(@D)
	flock . sh -c 'cd crates/sagecruet_c && rt lib'
	cp crates/sagecruet_c/out/libsagecruet_c.a $@

shared: $(shared)

$(shared): $(archive)
	@command -v $(firstword $(CC)) >/dev/null || { \
	    echo "make: the command $(firstword $(CC)) is not there; on Debian it comes with $(packages)" >&2; exit 1; }
	$(CC) -shared -Wl,-soname,libsagecruet.so -o $@ -Wl,--whole-archive $(archive) -Wl,--no-whole-archive

# A shared object that was made from an older archive is made anew.
install: $(archive) $(wildcard $(shared))
	install -d "$(place)/include" "$(place)/lib/pkgconfig"
	install -m 644 include/sagecruet.h "$(place)/include"
	install -m 644 $(archive) "$(place)/lib"
	if [ -f $(shared) ]; then install -m 755 $(shared) "$(place)/lib"; fi
	sed 's|@PREFIX@|$(prefix)|' include/sagecruet.pc.in > "$(place)/lib/pkgconfig/sagecruet.pc"
	chmod 644 "$(place)/lib/pkgconfig/sagecruet.pc"

uninstall:
	rm -f "$(place)/include/sagecruet.h" "$(place)/lib/libsagecruet.a" "$(place)/lib/libsagecruet.so"
	rm -f "$(place)/lib/pkgconfig/sagecruet.pc"

example: $(archive)
	$(MAKE) -C examples/c run PREFIX= PKG_CONFIG_PATH=

help:
	@sed -n 's/^#   //p' Makefile

# What is left of a build that fails is not taken for the library.
.DELETE_ON_ERROR:
.PHONY: shared install uninstall example help
