# `make` proves and builds the program, and leaves it at bin/cotpad; `make lib` leaves the library for hosts in lib/. `make quick`
# and `make quick-lib` leave the same in quick/ in about a minute, and prove nothing. `make demo` replays and shows the examples,
# and lets two copies exchange; `make check-hosts` runs hosts in C and in Python over the library. `make wheel` makes a package for
# Python of it, and `make install` installs it.
.PHONY: all lib quick quick-lib demo wheel install
.PHONY: check-examples check-bytes check-long-logs check-sessions check-past check-memory check-hosts check-python check-wheel check-install check-sanitizers check-relay check-relay-wrong check-pad check-pad-wrong check-edits
.PHONY: check-documents
.PHONY: compare doors trust clean

# Twice as many recipes at once as there are processors, where no -j says otherwise: those that most others wait for go first, and the
# others take what these leave (tools/lib).
ifeq ($(MAKELEVEL)$(filter -j%,$(MAKEFLAGS))$(filter clean,$(MAKECMDGOALS)),0)
MAKEFLAGS += -j$(shell expr 2 \* $$(nproc))
endif

.DELETE_ON_ERROR:

BEGAN := $(shell date +%s)
SOURCES := $(shell find crates -name out -prune -o -type f \( -name '*.rt' -o -name '*.antt' \) -print) crates.txt

# What crates.txt lists, as words CRATE:LIBRARY,LIBRARY, those first that the longest chain of others waits for.
LISTED := $(shell tools/lib --list)

comma := ,
CRATES := $(foreach it,$(LISTED),$(firstword $(subst :, ,$(it))))
below = $(subst $(comma), ,$(word 2,$(subst :, ,$(filter $(1):%,$(LISTED)))))
files = $(filter crates/$(1)/src/% crates/$(1)/specs/% crates/$(1)/proofs/% crates.txt,$(SOURCES))
# The marks that these libraries are built.
made = $(patsubst %,crates/%/out/made,$(1))

# How many of these libraries were built since make began, and how long ago that is.
anew = $$(find $(patsubst %,crates/%/out/rlib/stamp,$(1)) -newermt @$(BEGAN) | wc -l)
since = $$(( ($$(date +%s) - $(BEGAN)) / 60 )) min $$(( ($$(date +%s) - $(BEGAN)) % 60 )) s
over = over $(words $(call below,$(1))) libraries, $(call anew,$(call below,$(1))) of them built just now, in $(since)

all: bin/cotpad
	@echo "bin/cotpad: proved and built $(call over,cotpad)"

# Each library is built once those that it stands on are, independent ones side by side.
$(foreach it,$(CRATES),$(eval crates/$(it)/out/made: $(call files,$(it)) $(call made,$(call below,$(it)))))
crates/%/out/made:
	@tools/lib $*
	@touch $@

# `rt run` proves, compiles and links; the empty script that it is run on shows nothing.
bin/cotpad: $(call files,cotpad) $(call made,$(call below,cotpad))
	@mkdir -p bin
	cd crates/cotpad && rt run -- replay < /dev/null
	@cp crates/cotpad/out/cotpad bin/cotpad

# The kit's library that hands allocations on to malloc.
KIT_C = $(dir $(shell rt doc))c

# One object whose only global names are the calls of the header, so that it meets no other Rattle library in a program: made of
# the archive $(1) of the exports.
define one-object
	ld -r -o $(@D)/whole.o --whole-archive $(1) --no-whole-archive $(KIT_C)/liblibc_c.a
	objcopy --wildcard --keep-global-symbol='cotpad_*' $(@D)/whole.o $(@D)/cotpad.o
	rm -f $@
	ar rcs $@ $(@D)/cotpad.o
	rm $(@D)/whole.o $(@D)/cotpad.o
	tools/check-header $@
endef

lib: lib/libcotpad.a lib/libcotpad.so.4 lib/cotpad.pc
	@echo "lib/libcotpad.a, libcotpad.so.4 and cotpad.pc: proved and built $(call over,cotpad_c)"

lib/libcotpad.a: $(call files,cotpad_c) $(call made,$(call below,cotpad_c)) include/cotpad.h tools/check-header
	@mkdir -p lib
	cd crates/cotpad_c && rt lib
	$(call one-object,crates/cotpad_c/out/libcotpad_c.a)

%/libcotpad.so.4: %/libcotpad.a
	$(CC) -shared -o $@ -Wl,-soname,libcotpad.so.4 -Wl,-z,defs -Wl,--whole-archive $< -Wl,--no-whole-archive
	ln -sf libcotpad.so.4 $*/libcotpad.so

# What pkg-config reads, for a header in the folder $(1)/include and a library in the folder $(2).
pkg-config-file = printf '%s\n' 'prefix=$(1)' 'includedir=$${prefix}/include' 'libdir=$(2)' 'Name: cotpad' \
	'Description: the core of a group text editor' 'Version: 4' 'Cflags: -I$${includedir}' 'Libs: -L$${libdir} -lcotpad'

%/cotpad.pc: Makefile
	@mkdir -p $*
	$(call pkg-config-file,$(CURDIR),$${prefix}/$*) > $@

# The program and the library for hosts, to try things: nothing is claimed of them.
quick: quick/cotpad
	@echo "quick/cotpad: built in $(since); nothing is proved of it (\`make\` proves the program)"

quick-lib: quick/libcotpad.a quick/libcotpad.so.4 quick/cotpad.pc
	@echo "quick/libcotpad.a, libcotpad.so.4 and cotpad.pc: built in $(since); nothing is proved of them (\`make lib\` proves them)"

quick/cotpad: $(foreach it,cotpad $(call below,cotpad),$(call files,$(it))) tools/quick
	@tools/quick cotpad $@

quick/libcotpad.a: $(foreach it,cotpad_c $(call below,cotpad_c),$(call files,$(it))) include/cotpad.h tools/quick tools/check-header
	@tools/quick cotpad_c quick/exports.a
	$(call one-object,quick/exports.a)
	@rm quick/exports.a

needs-library = @test -f "$(LIB)/libcotpad.a" || \
	{ echo "there is no library for hosts: call \`make quick-lib\` or \`make lib\` first" >&2; false; }
# The package for Python as it stands here, over that library.
PACKAGE = COTPAD_LIB=$(abspath $(LIB))/libcotpad.so.4 PYTHONPATH=$(CURDIR)/python/src PYTHONDONTWRITEBYTECODE=1
HOST_FLAGS := -std=c99 -Wall -Wextra -Wpedantic -O2 -Iinclude
# The folder of the library that hosts are linked with.
LIB ?= $(patsubst %/libcotpad.a,%,$(firstword $(wildcard lib/libcotpad.a quick/libcotpad.a)))

# Three people, a cursor, a text of the host's that is kept by changes, and positions as editors count them, in C and in Python, and a
# host that stores before it sends, compared with what they have to write; sessions in which each allocation is refused in turn;
# operations that the user's own edits free, which are released and told, so that what is saved is loaded; and positions in drawn texts,
# compared with sums. Where valgrind is there, it has to find no bad access and no block left.
check-hosts:
	$(needs-library)
	@echo "with $(LIB)/libcotpad.a"
	@mkdir -p bin
	$(CC) $(HOST_FLAGS) -o bin/notes examples/embed/notes.c $(LIB)/libcotpad.a
	bin/notes | diff - examples/embed/notes.c.out
	$(PACKAGE) python3 examples/embed/notes.py | diff - examples/embed/notes.py.out
	$(CC) $(HOST_FLAGS) -o bin/cursor examples/embed/cursor.c $(LIB)/libcotpad.a
	bin/cursor | diff - examples/embed/cursor.c.out
	$(PACKAGE) python3 examples/embed/cursor.py | diff - examples/embed/cursor.py.out
	$(CC) $(HOST_FLAGS) -o bin/mirror examples/embed/mirror.c $(LIB)/libcotpad.a
	bin/mirror | diff - examples/embed/mirror.c.out
	$(PACKAGE) python3 examples/embed/mirror.py | diff - examples/embed/mirror.py.out
	$(CC) $(HOST_FLAGS) -o bin/positions examples/embed/positions.c $(LIB)/libcotpad.a
	bin/positions | diff - examples/embed/positions.c.out
	$(PACKAGE) python3 examples/embed/positions.py | diff - examples/embed/positions.py.out
	$(CC) $(HOST_FLAGS) -o bin/saved examples/embed/saved.c $(LIB)/libcotpad.a
	bin/saved | diff - examples/embed/saved.c.out
# In C++, and with two threads.
	$(CXX) -std=c++17 -Wall -Wextra -Wpedantic -O2 -Iinclude -o bin/classes tools/hosts/classes.cc $(LIB)/libcotpad.a
	bin/classes
	$(CC) $(HOST_FLAGS) -pthread -o bin/threads tools/hosts/threads.c $(LIB)/libcotpad.a
	bin/threads
	$(CC) $(HOST_FLAGS) -Wl,--wrap=malloc,--wrap=realloc -o bin/no_memory tools/hosts/no_memory.c $(LIB)/libcotpad.a
	bin/no_memory
	$(CC) $(HOST_FLAGS) -o bin/settles tools/hosts/settles.c $(LIB)/libcotpad.a
	bin/settles
	$(CC) $(HOST_FLAGS) -o bin/pasts tools/hosts/pasts.c $(LIB)/libcotpad.a
	bin/pasts
	$(CC) $(HOST_FLAGS) -Wl,--wrap=malloc,--wrap=realloc -o bin/drawn_positions tools/hosts/positions.c $(LIB)/libcotpad.a
	bin/drawn_positions
# In C99, which sees no layout, and in C11 and C++11, which do.
	@set -e; for language in 'c -std=c99' 'c -std=c11' 'c++ -std=c++11'; do \
		$(CC) -x $$language -Wall -Wextra -Wpedantic -Werror -O2 -Iinclude -o bin/numbers tools/hosts/numbers.c -x none $(LIB)/libcotpad.a; \
		printf '%s: ' "$$language"; bin/numbers; \
	done
	@if command -v valgrind > /dev/null; then \
		valgrind -q --leak-check=full --error-exitcode=1 bin/notes > /dev/null && echo "valgrind finds nothing in bin/notes"; \
	else \
		echo "no valgrind here: bin/notes wasn't run with it"; \
	fi
	@$(MAKE) --no-print-directory check-python LIB=$(LIB)

# The tests of the package for Python, over the library in the folder that LIB names. PYTHON= names another Python.
check-python:
	$(needs-library)
	@python=$$(tools/python pytest) || exit 1; cd python && $(PACKAGE) $$python -m pytest

# A package for Python in dist/, which holds the library in the folder that LIB names. Nothing is fetched.
wheel:
	$(needs-library)
	@rm -rf bin/wheel dist && mkdir -p bin/wheel && cp -r python/pyproject.toml python/setup.py python/README.md python/src LICENSE bin/wheel
	@python=$$(tools/python pip setuptools wheel) || exit 1; \
	COTPAD_LIB=$(abspath $(LIB))/libcotpad.so.4 $(if $(filter lib,$(LIB)),,COTPAD_UNPROVED=1) \
		$$python -m pip wheel -q --no-deps --no-index --no-build-isolation --wheel-dir dist bin/wheel
	@echo "$$(echo dist/*.whl): made of $(LIB)/libcotpad.so.4"

# Installs the wheel into a new environment, and runs the three people with it, elsewhere.
check-wheel: wheel
	@rm -rf bin/venv; python=$$(tools/python venv pip) || exit 1; $$python -m venv bin/venv
	bin/venv/bin/python -m pip install -q --no-index dist/*.whl
	cd / && env -u PYTHONPATH -u COTPAD_LIB $(CURDIR)/bin/venv/bin/python $(CURDIR)/examples/embed/notes.py | \
		diff - $(CURDIR)/examples/embed/notes.py.out
	@echo "the wheel works in an environment of its own"

PREFIX ?= /usr/local
LIBDIR ?= $(PREFIX)/lib
# Where things are put, which may be another place than where they will be used.
TO = $(DESTDIR)$(PREFIX)

# Installs the header, the library of the folder that LIB names, and the program if there is one.
install:
	$(needs-library)
	install -d "$(TO)/include" "$(DESTDIR)$(LIBDIR)/pkgconfig"
	install -m 644 include/cotpad.h "$(TO)/include"
	install -m 644 "$(LIB)/libcotpad.a" "$(DESTDIR)$(LIBDIR)"
	install -m 755 "$(LIB)/libcotpad.so.4" "$(DESTDIR)$(LIBDIR)"
	ln -sf libcotpad.so.4 "$(DESTDIR)$(LIBDIR)/libcotpad.so"
	$(call pkg-config-file,$(PREFIX),$(LIBDIR)) > "$(DESTDIR)$(LIBDIR)/pkgconfig/cotpad.pc"
	@if program=$$(tools/program 2> /dev/null); then \
		install -d "$(TO)/bin" && install -m 755 "$$program" "$(TO)/bin/cotpad" && echo "installed $$program as $(TO)/bin/cotpad"; \
	else \
		echo "no program was built: it isn't installed"; \
	fi

# Installs into a temporary folder, and builds and runs hosts with what was installed.
check-install:
	$(needs-library)
	@MAKE="$(MAKE)" CC="$(CC)" LIB="$(LIB)" tools/check-install

# Hosts in C under the sanitizers of the compiler, and one with threads. The library itself isn't compiled for them.
check-sanitizers:
	$(needs-library)
	@CC="$(CC)" CXX="$(CXX)" LIB="$(LIB)" tools/check-sanitizers

# The relay of examples/relay over an engine of its own: case by case, and then eight processes that are killed while they edit, for
# SECONDS, as SEED says. RELAY_PYTHON names one that has the module redis; else the first of two is taken.
SECONDS ?= 60
SEED ?= 1
RELAY_PYTHON ?= $(firstword $(shell for it in python3 /usr/bin/python3; do $$it -c 'import redis' 2> /dev/null && echo $$it; done) python3)
check-relay:
	@test -f "$(LIB)/libcotpad.so.4" || { echo "there is no library for hosts: call \`make quick-lib\` or \`make lib\` first" >&2; false; }
	@echo "with $(LIB)/libcotpad.so.4 and $(RELAY_PYTHON)"
	COTPAD_LIB=$(abspath $(LIB))/libcotpad.so.4 $(RELAY_PYTHON) examples/relay/tests/cases.py
	COTPAD_LIB=$(abspath $(LIB))/libcotpad.so.4 $(RELAY_PYTHON) examples/relay/tests/chaos.py --seconds $(SECONDS) --seed $(SEED)

# Wrong bodies of the relay, each of which a case has to tell.
check-relay-wrong:
	@test -f "$(LIB)/libcotpad.so.4" || { echo "there is no library for hosts: call \`make quick-lib\` or \`make lib\` first" >&2; false; }
	COTPAD_LIB=$(abspath $(LIB))/libcotpad.so.4 $(RELAY_PYTHON) examples/relay/tests/wrong.py

# The pad of examples/pad: its modules, its server, and three tabs in a real Chromium. TESTS= names some of its tests alone.
TESTS ?= examples/pad/tests
PAD = COTPAD_LIB=$(abspath $(LIB))/libcotpad.so.4 PYTHONDONTWRITEBYTECODE=1
check-pad:
	@test -f "$(LIB)/libcotpad.so.4" || { echo "there is no library for hosts: call \`make quick-lib\` or \`make lib\` first" >&2; false; }
	@python=$$(tools/python aiohttp pytest selenium) || exit 1; $(PAD) $$python examples/pad/tests/needs.py || exit 1; \
	echo "with $(LIB)/libcotpad.so.4 and $$python"; $(PAD) $$python -m pytest -q -p no:cacheprovider $(TESTS)

# Wrong bodies of the pad, each of which a test has to tell.
check-pad-wrong:
	@test -f "$(LIB)/libcotpad.so.4" || { echo "there is no library for hosts: call \`make quick-lib\` or \`make lib\` first" >&2; false; }
	@python=$$(tools/python aiohttp pytest selenium) || exit 1; $(PAD) $$python examples/pad/tests/needs.py || exit 1; \
	$(PAD) $$python examples/pad/tests/wrong.py

# A port of this machine that nobody uses.
FREE_PORT = $$(python3 -c 'import socket; it = socket.create_server(("127.0.0.1", 0)); print(it.getsockname()[1])')

# The targets below run the program that PROGRAM names, else the one at bin/, else the one at quick/.
demo:
	@program=$$(tools/program) || exit 1; \
	for script in examples/*.script; do \
		echo "== $$script"; cat $$script; echo "-- replayed"; $$program replay < $$script; echo; \
	done; \
	for log in examples/*.log; do \
		echo "== $$log, shown"; $$program show < $$log; \
	done; \
	echo "== examples/explain.log, 1.1/2 explained"; $$program explain 1.1/2 < examples/explain.log; \
	echo "== examples/hello.log, played back"; $$program playback < examples/hello.log; \
	echo "== examples/hello.log, operation by operation"; $$program history < examples/hello.log; \
	echo "== examples/hello.log, hashed"; $$program digest < examples/hello.log; \
	echo "== examples/exchange.sh"; examples/exchange.sh $(FREE_PORT)

# Compares what the program writes of each example with its report, what a program that drives it through a pipe reads, and its
# answers to the frames and logs of docs/vectors.txt. Reports and answers were worked out by hand from docs/FORMATS.md.
check-examples:
	@set -e; program=$$(tools/program); \
	for script in examples/*.script; do \
		$$program replay < $$script 2> /dev/null | cmp - $${script%.script}.report; \
	done; \
	for log in examples/*.log; do \
		$$program show < $$log | cmp - $${log%.log}.report; \
	done; \
	$$program explain 1.1/2 < examples/explain.log | cmp - examples/explain.steps; \
	$$program playback < examples/hello.log | cmp - examples/hello.played; \
	$$program history < examples/hello.log | cmp - examples/hello.history; \
	$$program digest < examples/hello.log | cmp - examples/hello.digest; \
	$$program upgrade < examples/version1.log | cmp - examples/hello.log; \
	examples/exchange.sh $(FREE_PORT) | cmp - examples/exchange.report; \
	examples/said.sh $(FREE_PORT) | cmp - examples/said.report; \
	timeout 60 examples/drive.py $$program | cmp - examples/drive.out; \
	echo "each example writes its report with $$program"; \
	tools/check-vectors

# Frames that nobody should send, compared with the answers of a grammar that is written a second time.
check-bytes:
	@tools/judge-frames

# Logs at the greatest length that is read, and longer ones, which aren't written.
check-long-logs:
	@tools/check-long-logs

# The reference of tools/reference over examples and rows that were worked out by hand; and then drawn sessions, of each of which the
# program has to write the report that the reference gives: for SECONDS, as SEED says, or COUNT of them.
check-sessions:
	@tools/program > /dev/null
	@tools/check-sessions --rows
	@tools/check-sessions SEED=$(SEED) SECONDS=$(SECONDS) COUNT=$(COUNT)

# Texts of the past, as `at` shows them, beside those of sites that have these operations alone, over the library in the folder that LIB
# names. SEED= and COUNT= say which sessions.
check-past:
	$(needs-library)
	@tools/program > /dev/null
	@$(PACKAGE) tools/check-past SEED=$(SEED) COUNT=$(COUNT)

# Sessions in which each allocation is refused in turn: each run is out of memory and wrote a front of its answer, or goes well.
check-memory:
	@tools/refuse-allocations

# What the documents name has to be there, and the commands and examples of README and docs/USING.md have to write what they show.
check-documents:
	@LIB="$(LIB)" tools/check-documents

# The program beside the yardstick of bench/, by the sessions of docs/MEASUREMENTS.md or those in NAMES, in half a minute; with
# nothing else on the machine. It needs rustc.
compare:
	@program=$$(tools/program) && echo "with $$program" && bench/compare $$program $(NAMES)

# The must-fail edits that the gate leaves out, each of which has to be refused.
check-edits:
	@tools/check-edits

# Says whether docs/TRUST.md lists what the headline and each further promise need; `tools/trust --write` writes it.
trust:
	@tools/trust

# Names each import of another crate's proofs that goes past that crate's door, proofs/CallerLemmas.antt.
doors:
	@tools/doors

clean:
	rm -rf bin lib quick dist
