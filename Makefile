# make          proves every crate, builds the program, the library, the Rust package and the
#               command, and prints the sample listing
# make test     the gate (rt ci), then every other test; the last line is the gate's own, if all
#               passed
# make mutants  tries the edits crates/*/mutants/*.edit, which the gate passes over: the prover must
#               refuse each. CRATES="volume plan" tries those of some crates alone
# make bench    times the library beside a yardstick in Rust and beside a copy; fails where a target
#               is missed
# make soak     random and damaged input beside the naive searcher, for ten minutes or as SECONDS=60
#               says
# make install  copies the command, the header and the library to bin/, include/ and lib/ of PREFIX,
#               below DESTDIR if that is given; make uninstall removes them
# make clean    removes all that these made, and what rt keeps of the crates

SHELL := bash
.SHELLFLAGS := -euo pipefail -c
.NOTPARALLEL:
.DELETE_ON_ERROR:
.PHONY: all tools proved test mutants bench soak install uninstall clean

PREFIX := /usr/local
# The folder to install into, quoted for the shell.
INTO = '$(subst ','\'',$(DESTDIR)$(PREFIX))'
CARGO := cargo
PACKAGE := --manifest-path rust/Cargo.toml --offline --locked
COMMAND := rust/target/release/lhz
HEADER := include/lihambozy.h
LIBRARY := target/staticlib/liblihambozy.a
# What the library is made of. A folder is newer than the library where a file has gone. A crate's
# own folder does not count, since `rt` makes and removes out/ there.
SOURCES := crates.txt $(shell find crates -mindepth 2 \
    \( -name must-fail -o -name mutants -o -name out \) -prune -o -print)
WARNINGS := -Wall -Wextra -Werror
GATE_LOG := build/ci.log
LIBRARY_LOG := build/library.log
PROGRAM_LOG := build/program.log
SECONDS := 600
CRATES :=

all: tools proved $(LIBRARY)
	$(CARGO) build --release $(PACKAGE)
	cd crates/lister && rt run >/dev/null
	cd crates/lister/data && ../out/lister
	@echo 'the command: rust/target/release/lhz'

# Says which tools are missing, before anything is proved.
tools:
	@missing=0; \
	need() { command -v "$$1" >/dev/null || { echo "make: $$1 is missing: $$2" >&2; missing=1; }; }; \
	need rt 'the Rattle toolchain, which proves and compiles the crates'; \
	need '$(firstword $(CARGO))' 'it builds the Rust package and the command, and runs the tests'; \
	for compiler in $(sort cc $(firstword $(CC))); do \
	    need $$compiler 'the C compiler, for the link of the Rust package and for programs in C'; \
	done; \
	exit $$missing

# Proves the crates that have changed since they were proved last.
proved:
	rt all check

# `rt lib` proves what has changed, and leaves the library in its crate's out/.
$(LIBRARY): $(SOURCES)
	cd crates/lihambozy && rt lib
	mkdir -p $(@D)
	cp crates/lihambozy/out/$(@F) $@

# The gate builds no library, and prints no verdict on what it passed before on this machine. So the
# library is built after it, and the program is checked once more, each with a verdict of its own.
test: tools
	mkdir -p build
	rt ci 2>&1 | tee $(GATE_LOG) || { echo 'rt ci failed'; exit 1; }
	(cd crates/lihambozy && rt lib) 2>&1 | tee $(LIBRARY_LOG)
	(cd crates/lister && rt check --list-axioms) 2>&1 | \
	    grep -vE '^ +[A-Za-z0-9_:]+$$' | tee $(PROGRAM_LOG)
	awk -v assumed='$(ASSUMED)' "$$ASSUME_NOTHING" crates.txt \
	    of=gate $(GATE_LOG) of=library $(LIBRARY_LOG) of=program $(PROGRAM_LOG)
	mkdir -p $(dir $(LIBRARY))
	cp crates/lihambozy/out/$(notdir $(LIBRARY)) $(LIBRARY)
	$(CC) -std=c99 $(WARNINGS) -fsyntax-only -x c $(HEADER)
	if $(CC) -fsyntax-only -x c++ /dev/null; then $(CC) $(WARNINGS) -fsyntax-only -x c++ $(HEADER); fi
	$(CARGO) test --release $(PACKAGE)
	$(CARGO) test --release $(PACKAGE) --bench volume --bench search
	@tail -n 1 $(GATE_LOG)

mutants: tools
	tools/mutants $(CRATES)

bench: tools $(LIBRARY)
	$(CARGO) bench --no-fail-fast $(PACKAGE) --bench volume --bench search

soak: tools $(LIBRARY)
	$(CARGO) test --release $(PACKAGE) --test soak -- --seconds $(SECONDS)

install:
	@for file in $(COMMAND) $(LIBRARY); do \
	    test -f $$file || { echo "make: $$file is absent: run make first" >&2; exit 1; }; \
	done
	install -d $(INTO)/bin $(INTO)/include $(INTO)/lib
	install $(COMMAND) $(INTO)/bin
	install -m 644 $(HEADER) $(INTO)/include
	install -m 644 $(LIBRARY) $(INTO)/lib

uninstall:
	rm -f $(INTO)/bin/$(notdir $(COMMAND)) $(INTO)/include/$(notdir $(HEADER)) $(INTO)/lib/$(notdir $(LIBRARY))

clean:
	rm -rf target build rust/target crates/*/out

# What the program is proved over: the C functions of the kit that std calls for it.
ASSUMED := libc::close libc::read libc::write os::c::__xpg_strerror_r os::c::open \
    os::c::rattle_errno os::c::rattle_set_errno

# Reads crates.txt, the gate's log, and those of the library and of the program. In the gate's log a
# crate's verdict stands above its line `rt: NAME proved`. In the others the last verdict is that of
# the library or the program, and the axioms that it counts stand above it. Fails unless the gate's
# log ends as that of a passed gate, its line `rt: ok` tells of no bad edit, every listed crate has
# its verdict there or was passed by an earlier run of the gate, library and program have theirs, no
# verdict names a foreign function, none but the program's counts axioms, and those of the program
# are among the assumed.
define ASSUME_NOTHING
BEGIN { split(assumed, words, " "); for (word in words) known[words[word]] }
!of { sub(/#.*/, ""); if (sub(/:.*/, "")) listed[$$1]; next }
/^logic=/ { verdict[of] = $$0; if (/ foreign=/) fail("a foreign function: " $$0) }
of == "gate" { last = $$0 }
/^rt: ok; / { ok = $$0 }
/^rt: [a-z0-9_]+ proved$$/ { verdicts[$$2] = verdict[of]; verdict[of] = "" }
/^rt: [a-z0-9_]+ is kept: an earlier run on this machine proved / { kept[$$2] }
/^ +[A-Za-z0-9_:]+ +reached$$/ { axioms[of] = axioms[of] " " $$1 }
function fail(why) { print "make: " why; failed = 1 }
function axioms_of(verdict) { return sub(/.* axioms=/, "", verdict) ? verdict + 0 : 0 }
function program(crate) { return system("test -f crates/" crate "/src/main.rt") == 0 }
function hold(what, verdict, may_assume) {
    if (verdict !~ /^logic=proved /) fail(what " has no verdict")
    if (axioms_of(verdict) && !may_assume) fail(what " assumes something: " verdict)
}
END {
    if (last !~ /^[1-9][0-9]* passed, 0 failed$$/) fail("the gate did not pass: " last)
    if (ok == "" || ok ~ /, [0-9]+ bad/) fail("not every edit was tried: " ok)
    for (crate in listed) if (!(crate in kept)) hold(crate, verdicts[crate], program(crate))
    hold("the library", verdict["library"])
    hold("the program", verdict["program"], 1)
    told = axioms_of(verdict["program"])
    count = split(axioms["program"], names, " ")
    if (told != count) fail("the program counts " told " axioms and names " count)
    for (name in names) if (!(names[name] in known)) fail("the program assumes " names[name])
    exit failed
}
endef
export ASSUME_NOTHING
