# The program's words. Paths are those of the folder in which make runs.
ARGS ?= examples/seeder.log
# The pool that is drawn.
POOL ?= examples/sprayer.iop

.PHONY: run picture pictures quick help test prove examples wrong-bodies build bench bench-hostile bench-counts refuse-memory test-c shared \
	libs-aarch64 install dist reference test-python wheel desk test-desk test-page

# Replays a log by the quick build of vt_replay, which proves nothing. Some three minutes at first, a second later.
run:
	@python3 scripts/quick.py --run vt_replay $(ARGS)

# Draws the active mask of POOL as SVG on the standard output, by the quick build: make -s picture POOL=my.iop > my.svg
picture:
	@python3 scripts/quick.py --run segyolant draw $(POOL)

# Makes the pictures of README.md and examples/kinds.md anew, by the proved program and Debian's rsvg-convert.
pictures: build
	@bash scripts/pictures.sh

# Leaves quick builds of vt_replay, segyolant, segyolant_log and vt_live in out/quick, to be run by their paths. They prove nothing.
quick:
	@python3 scripts/quick.py

# Lists these commands.
help:
	@awk '/^# /{text = text substr($$0, 2)} /^[a-z0-9-]+:/{sub(/:.*/, ""); printf "make %-14s%s\n", $$0, text} !/^# /{text = ""}' Makefile

# Runs the tests without any proof, in minutes: logs, pools and command lines by quick builds, and test functions. ONLY=hide runs those
# whose names hold the word, BLESS=1 writes what came into the files of tests/.
test:
	@python3 scripts/run_tests.py --only "$(ONLY)" $(if $(BLESS),--bless,--functions)

# The gate: proves every crate, runs the tests on the proved programs as both compilers build them, tries the wrong bodies, and makes
# the static libraries.
prove:
	@rt version
	@python3 scripts/crates.py
	@python3 scripts/links.py
	@python3 scripts/records.py
	@python3 scripts/page.py
	@python3 scripts/version.py
	@python3 scripts/recipes.py
	@python3 scripts/default_arms.py
	@bash scripts/examples.sh --check
	@python3 scripts/build.py --gate
	@python3 scripts/reference.py --check --programs '$(CURDIR)/crates/{}/out/{}'
	@python3 scripts/run_tests.py --programs 'crates/{}/out/{}'
	@python3 scripts/run_tests.py --programs 'crates/{}/out/{}.by-rattle'
	@python3 scripts/wrong_bodies.py --gate
	@python3 scripts/static_libs.py --after-gate

# Copies the examples to where the gate runs programs on them.
examples:
	@bash scripts/examples.sh

# Tries all wrong bodies, over the libraries that make prove left. CRATES may name some crates.
wrong-bodies:
	@python3 scripts/wrong_bodies.py $(CRATES)

# Proves the programs and leaves them at crates/vt_replay/out/vt_replay, crates/segyolant/out/segyolant, crates/segyolant_log/out/segyolant_log
# and crates/vt_live/out/vt_live. Nothing is proved again that make prove has proved on this machine.
build:
	@python3 scripts/build.py

# Times the proved program on a million lines, read and ignored, answered with a new screen each, and answered with
# macros, and pools written and read.
bench: build
	@bash scripts/bench.sh
	@bash scripts/bench_pools.sh

# Times the proved program on the dearest inputs of their kind, each at two lengths: updates of a large pool, NAMEs that leave
# an address, macros of pointer changes, long screens, and sessions of all sources. OTHER may name a program to compare with.
bench-hostile: build
	@python3 scripts/bench_hostile.py crates/vt_replay/out/vt_replay $(OTHER)

# Counts the instructions of the proved program for a line, a command, a drawn line, an update and others, by valgrind. OTHER may
# name a program to compare with.
bench-counts: build
	@python3 scripts/count_instructions.py crates/vt_replay/out/vt_replay $(OTHER)

# Refuses each request for memory in turn, in the tests of each crate that are made for it and in the proved program.
refuse-memory:
	@python3 scripts/refuse_memory.py

# Tests the static libraries for C by the programs of examples/c, examples/cpp and bindings/rust, and makes them first where they are
# not made. CASES may name folders of stored runs.
test-c:
	@python3 scripts/static_libs.py
	@python3 scripts/test_c.py $(foreach folder,$(CASES),--cases $(folder))

# Links the static libraries to a shared one, out/lib/libsegyolant.so. PREFIX=/usr/local installs all three with their headers, and with
# files for pkg-config and CMake; DESTDIR is put before that path.
shared:
	@python3 scripts/static_libs.py
	@python3 scripts/shared_lib.py $(if $(PREFIX),--prefix $(PREFIX) --root "$(DESTDIR)")

# Installs the proved programs, the libraries, man pages, completions and documents: make install PREFIX=/usr/local. DESTDIR is put before
# that path.
install: build
	@python3 scripts/static_libs.py
	@python3 scripts/dist.py --prefix $(or $(PREFIX),/usr/local) --root "$(DESTDIR)"

# Packs the same into dist/segyolant-VERSION-x86_64-linux.tar.gz. QUICK=1 packs quick builds of the programs alone.
dist: $(if $(QUICK),quick,build)
	@$(if $(QUICK),,python3 scripts/static_libs.py)
	@python3 scripts/dist.py $(if $(QUICK),--quick)

# Writes the reference pages of the command lines anew, docs/VT_REPLAY.md, SEGYOLANT.md and SEGYOLANT_LOG.md.
reference: quick
	@python3 scripts/reference.py

# Proves the static libraries for aarch64 and leaves them at crates/*/out/aarch64-unknown-linux-gnu, over the libraries that make prove
# or make test-c left in this tree. make test-c then runs them too, if qemu-aarch64 and aarch64-linux-gnu-gcc are there.
libs-aarch64:
	@python3 scripts/static_libs.py --target aarch64-unknown-linux-gnu

# Tests the package for Python, and the recipes of docs/PYTHON.md. GATE=1 takes the proved programs that make prove left.
test-python:
	@python3 scripts/python_tests.py package $(if $(GATE),--gate)

# Makes a package for Python with the proved programs, for x86-64 Linux, in out/wheel.
wheel: build
	@python3 -B bindings/python/make_wheel.py

# Runs the terminal on the desk: a page in the browser with the live mask and the bus, for a simulated sprayer, or as ARGS say:
# make desk ARGS="--bus socketcan:can0" (docs/DESK.md).
desk:
	@python3 scripts/desk.py $(if $(filter command line,$(origin ARGS)),$(ARGS))

# Tests the desk, the test bench and the simulated implement: the server, and the page in headless Chromium. Pictures of it go to out/desk.
# GATE=1 takes the proved program, and the page alone.
test-desk:
	@python3 scripts/python_tests.py desk $(if $(GATE),--gate)

# Tests the pages of segyolant_log report and segyolant report in a headless Chromium, by the quick builds. What is missing of Debian's
# packages is named.
test-page:
	@python3 scripts/log_page.py $(if $(GATE),crates/segyolant_log/out/segyolant_log,out/quick/segyolant_log)
	@python3 scripts/pool_page.py $(if $(GATE),crates/segyolant/out/segyolant,out/quick/segyolant)
