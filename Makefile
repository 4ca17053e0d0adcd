# The toolchain's command; RT=/path/to/rt where it isn't on the PATH.
RT ?= rt
PREFIX ?= /usr/local
PROGRAMS = muxd mux mux_web muxsim mux_trail vtcat
TESTS = $(notdir $(patsubst %/,%,$(dir $(wildcard crates/*_tests/src))))
SCRIPTS = $(shell grep -s -l -m 1 '^.!/bin/sh' contrib/*)

.PHONY: demo try-server shell build try check test edits examples outside lint proved install uninstall dist

# Plays a script of examples/, without any proof: about a minute.
SCRIPT ?= first-run
demo:
	@cd crates/muxsim && $(RT) try -- --show own < ../../examples/$(SCRIPT).mux
	@echo "make demo: nothing was proved; make build proves muxsim, make test everything" >&2

# Two users and a shell in a window, over a server that is tried unproved: two to three minutes.  KEEP=1: it stays.
try-server:
	@RT='$(RT)' KEEP='$(KEEP)' examples/try-server

# The same with the muxd that make build made.
shell:
	@MUXD='$(BIN)/muxd' KEEP='$(KEEP)' examples/try-server

# Proves the programs and all that they stand on, several crates at a time, and puts the programs into bin/.  What was
# interrupted goes on where it was.  make build JOBS=2: two jobs at a time.
build:
	@RT='$(RT)' tools/build $(if $(JOBS),-j $(JOBS)) $(PROGRAMS)

# Runs all tests, unproved.
try:
	@for crate in $(TESTS); do echo "== $$crate"; (cd crates/$$crate && $(RT) try --test) || exit 1; done

# Proves one crate, over what earlier checks kept: make check CRATE=acl.
check:
	@test -n "$(CRATE)" || { echo "make check CRATE=name" >&2; exit 2; }
	@cd crates/$(CRATE) && $(RT) check

# The gate: every proof from nothing, the must-fail edits, the tests and the programs; then whether all is there that the
# specification and docs/PROVED.md name, and the tests of refused memory with each of their allocations refused in turn.
# As many crates at a time as there are processors, each with one job, but no more than four: a proof takes up to 4 GB.
# RT_JOBS=2 make test: two.
LANES = $(shell n=$$(nproc); test $$n -le 4 || n=4; echo $$n)
test:
	@RT='$(RT)' RT_JOBS=$${RT_JOBS:-$(LANES)} tools/rt ci
	@tools/lint named >&2 && tools/lint claims >&2
	@RT='$(RT)' tools/refusals >&2

# Tries the edits of edits/ in copies of the tree: all, or make edits CRATE=acl.
edits:
	@tools/edits $(CRATE)

# Plays the scripts of examples/ with a muxsim that is built, and those of contrib/policies after their setups, and
# compares what they print, and the pictures of docs/TEACHING.md.
MUXSIM ?= bin/muxsim
export MUXSIM
examples:
	@test -x $(firstword $(MUXSIM)) || { echo "make examples: make build makes bin/muxsim" >&2; exit 2; }
	@for script in examples/*.mux; do \
	    $(MUXSIM) --show own < $$script | cmp - $${script%.mux}.out || exit 1; \
	done
	@for script in contrib/policies/*.mux; do \
	    for edition in 1 2; do \
	        $(MUXSIM) --show --edition $$edition --setup $${script%.mux} own < $$script \
	            | cmp - $${script%.mux}.out || exit 1; \
	    done; \
	done
	@tools/lint pictures docs/TEACHING.md docs/pictures/*.svg
	@echo "make examples: $(words $(wildcard examples/*.mux contrib/policies/*.mux)) scripts and the pictures agree"

# Plays all of tests/outside with the programs that make build made, or those of another folder, and says in its last
# line how many were played, failed and skipped: make outside BIN=dist/bin PLAYS="server policies".  About an hour.
BIN ?= bin
outside:
	@tests/outside/all --bin $(BIN) $(PLAYS)

# Scripts, programs in Python and Perl, terminal descriptions and man pages: Debian's shellcheck, ncurses-bin and mandoc.
PYTHON = $(sort $(wildcard bench/*.py tests/outside/*.py) \
    $(shell grep -s -l -m 1 '^.!.*python3' tools/* examples/* tests/outside/*))
lint:
	shellcheck -x -s sh $(SCRIPTS) contrib/lib/mux.sh $(shell grep -l -m 1 '^.!/bin/sh' examples/* tests/outside/*)
	shellcheck -s bash contrib/completions/mux.bash
	@for file in $(PYTHON); do \
	    python3 -c 'import sys; compile(open(sys.argv[1]).read(), sys.argv[1], "exec")' $$file || exit 1; \
	done
	@for file in $(shell grep -s -l -m 1 '^.!/usr/bin/perl' contrib/*); do perl -c $$file || exit 1; done
	tic -c contrib/mux.ti
	cat contrib/mux.ti contrib/vt220.ti | tic -c /dev/stdin
	@for page in man/*.[158]; do man/whole $$page | mandoc -T lint -W warning || exit 1; done
	tests/outside/empty_edits
	tools/edits --look
	tools/lint

# Prints each public call with its clauses, and what they say: make proved CRATE=acl for one crate.
proved:
	@tools/lint proved $(CRATE)

# Installs what make build proved, with its man pages, scripts, completions, units, terminal descriptions and documents.
# As root it may not find the toolchain: sudo make install RT=$$(command -v rt).
install:
	@RT='$(RT)' tools/dist install '$(PREFIX)' '$(DESTDIR)'

# Removes what make install put there.
uninstall:
	@tools/dist uninstall '$(PREFIX)' '$(DESTDIR)'

# Packs the same files: dist/mux-VERSION-x86_64-linux.tar.gz and dist/mux_VERSION_amd64.deb, if make build proved them.
dist:
	@RT='$(RT)' tools/dist pack
