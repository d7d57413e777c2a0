# make run        shows examples/hello by the proved program; if that is still to be built, first without a proof
# make test       tests, examples, documents and the quick parts of tests/, by what is compiled before any proof: minutes
# make gate       every proof, wrong bodies, examples, documents and tests/ by the proved programs: hours on a new machine
# make trials     the tests of tests/ alone
# make wrong-bodies  tries the wrong bodies of CRATES, or of all crates, those that the gate leaves out too
# make bench      measures the program and packets, beside FreeRADIUS where it is installed (docs/SPEED.md)
# make fuzz       changed cases through the built program, for so many SECONDS
# make documents  the documents' links and commands, the examples in doc comments, the completions and the manual
#                 pages, with the built program
# make install    puts what programs.txt lists, programs with their manual pages and completions and the library for C,
#                 the dictionaries, the examples and the users' documents below PREFIX
# make uninstall  removes them
# make package    makes Debian packages and a tarball of the same files in out/

RT ?= $(shell command -v rt || echo /opt/rattle/bin/rt)
PREFIX ?= /usr/local
PROGRAM = crates/radpolicy_cli/out/radpolicy_cli
EXAMPLE = examples/hello

.PHONY: run build test gate trials wrong-bodies bench fuzz documents install uninstall package

run:
	@RT="$(RT)" scripts/run $(EXAMPLE)

build:
	@RT="$(RT)" scripts/build $$(scripts/list-installed crates)

test:
	@RT="$(RT)" scripts/test

gate:
	@RT="$(RT)" scripts/gate $(PROGRAM)

trials:
	@tests/run $(PROGRAM)

CRATES =

wrong-bodies:
	@RT="$(RT)" scripts/try-wrong-bodies $(CRATES)

bench: build
	@RT="$(RT)" scripts/build drive radpolicy_c
	@RT="$(RT)" bench/run $(PROGRAM) crates/drive/out/drive crates/radpolicy_replay/out/radpolicy_replay

SECONDS = 60

fuzz:
	@tests/fuzz/fuzz $(PROGRAM) $(SECONDS)

documents:
	@scripts/check-documents $(PROGRAM)

install: build
	@RT="$(RT)" scripts/install "$(DESTDIR)$(PREFIX)"
	@echo "The program is $(DESTDIR)$(PREFIX)/bin/radpolicy; 'man radpolicy' and 'radpolicy --help' tell how to use it."

uninstall:
	@scripts/uninstall "$(DESTDIR)$(PREFIX)"
	@echo "Removed from $(DESTDIR)$(PREFIX): the programs and what was installed with them."

package: build
	@RT="$(RT)" scripts/package out
