# The commands of the repository. Each needs Linux, the Rattle kit's `rt` and Python 3; what else one needs is said there.

.PHONY: all try run check install uninstall dist clean definitions test edits program-test view-test c-test threads-test gdb-test explore-test refuse mutate bench

all: ir

SOURCES := crates.txt $(shell find crates -name out -prune -o -type f -name '*.rt' -print -o -type f -name '*.antt' -print)

# Proves and builds the program, unless it is built of these sources already.
ir: $(SOURCES)
	python3 scripts/prove.py ir_cli
	cd crates/ir_cli && python3 ../../scripts/rt.py run < stdin > out.txt && cmp out.txt stdout && rm out.txt
	install -m 755 crates/ir_cli/out/ir_cli ir.part
	python3 scripts/stamp.py ir.part proved
	mv ir.part ir
	@echo "The program is ./ir"

# The program with checks in place of proofs, in some two minutes: every subcommand, hundreds of times slower, meant for small guests.
ir-unproved: $(SOURCES)
	python3 scripts/unproved.py ir-unproved.part
	python3 scripts/stamp.py ir-unproved.part unproved
	mv ir-unproved.part ir-unproved
	@echo "The program is ./ir-unproved: not proved, checked at run time, hundreds of times slower, meant for small guests. \`make\` proves it, as ./ir"

# A first look before anything is proved: the sessions of examples/sessions and the first hunt of the README, by that program.
try: ir-unproved
	python3 scripts/try_unproved.py ./ir-unproved

# A first session, by ./ir if it is there, else by ./ir-unproved.
run:
	@if [ -x ir ]; then ./ir < crates/ir_cli/stdin; else $(MAKE) --no-print-directory ir-unproved && ./ir-unproved < crates/ir_cli/stdin; fi

# The quick test: the layout and the pages, and the program as a person runs it: all of tests/program.py by ./ir, or else what ends in some minutes
# by ./ir-unproved.
QUICK = arguments explaining hints own_files parts names outputs profiles trace closed_streams closed_pipe failed_sessions sessions help
check:
	python3 scripts/rooms.py
	@if [ -x ir ]; then python3 tests/program.py ./ir; else $(MAKE) --no-print-directory ir-unproved && python3 tests/program.py ./ir-unproved $(QUICK); fi

# Puts the built program, its manual page, bash's completion and the files for guests from C below PREFIX, or takes them away. They build nothing.
PREFIX ?= /usr/local
SHARE = $(DESTDIR)$(PREFIX)/share
# Where the options for guests from C find their files.
GUEST = $(PREFIX)/share/ir

install:
	@[ -x ir ] || { echo "./ir isn't built: \`make\` builds it"; exit 1; }
	install -D -m 755 ir $(DESTDIR)$(PREFIX)/bin/ir
	install -D -m 644 man/ir.1 $(SHARE)/man/man1/ir.1
	install -D -m 644 completions/ir.bash $(SHARE)/bash-completion/completions/ir
	install -D -m 755 -t $(DESTDIR)$(PREFIX)/bin guest/ir-cc guest/ir-where guest/ir-lines
	install -D -m 644 -t $(SHARE)/ir guest/*.h guest/ir.ld guest/ir_mem.c examples/ir.gdb
	sed 's|guest|$(GUEST)|g' guest/ir.opts > $(SHARE)/ir/ir.opts
	cd guest && find threads -type f ! -name '*.pyc' -exec install -D -m 644 {} $(abspath $(SHARE))/ir/{} \;

uninstall:
	rm -f $(addprefix $(DESTDIR)$(PREFIX)/bin/,ir ir-cc ir-where ir-lines) $(SHARE)/man/man1/ir.1 $(SHARE)/bash-completion/completions/ir
	rm -rf $(SHARE)/ir

# A tarball of the built program and what belongs to it, with the commit and the kit: the same bytes each time for the same ./ir.
NAME = ir-$(shell ./ir --version | cut -d' ' -f2)-x86_64-linux
dist:
	@[ -x ir ] || { echo "./ir isn't built: \`make\` builds it"; exit 1; }
	rm -rf .dist
	$(MAKE) --no-print-directory -s install DESTDIR=$(CURDIR)/.dist PREFIX=/$(NAME) GUEST=share/ir
	cp -r README.md CHANGELOG.md docs examples .dist/$(NAME)/share/ir/
	git rev-parse HEAD > .dist/$(NAME)/share/ir/COMMIT
	rt version > .dist/$(NAME)/share/ir/KIT
	tar --sort=name --owner=0 --group=0 --numeric-owner --mode=go-w --mtime=@$$(git log -1 --format=%ct) -C .dist -c $(NAME) | gzip -n > $(NAME).tar.gz
	rm -rf .dist
	@sha256sum $(NAME).tar.gz

# Removes what was built and proved, some 12 GB: the next `make` begins from nothing.
clean:
	rm -rf crates/*/out ir ir.part ir-unproved ir-unproved.part .dist .bench ir-*.tar.gz

# Prints an index of the definitions in specs/.
definitions:
	@python3 scripts/definitions.py --index

# The merge gate: the rooms of the crates, and then every proof from nothing, must-fail edits, tests, programs.
test:
	python3 scripts/rooms.py
	RT_JOBS=$$(python3 scripts/prove.py --jobs) python3 scripts/rt.py ci

# Every edit, those that the gate tries and those beside it, each of which the prover has to refuse at what it changes.
edits: ir
	python3 scripts/edits.py

# The program as a person runs it: devices, pipes, signals, the commands of README, guide and examples. Needs Linux, bash and xxd beside.
program-test: ir
	python3 tests/program.py ./ir
	python3 tests/least.py ./ir

# The page of `ir view` in a browser, and its data against a plain reading of recordings. Needs chromium beside.
view-test: ir
	python3 tests/view.py ./ir
	python3 tests/view_page.py ./ir

# Guests from C: compiled at four levels, converted, recorded, hunted in. Needs riscv64-unknown-elf-gcc beside, and says so if it isn't there.
c-test: ir
	python3 tests/c_guests.py ./ir

# Ordinary C programs with threads as guests, against what they do natively. Needs riscv64-unknown-elf-gcc beside, and says so if it isn't there.
threads-test: ir
	python3 tests/threads.py ./ir

# A real gdb over recordings of guests from C. Needs gdb-multiarch and riscv64-unknown-elf-gcc beside, and says so if they aren't there.
gdb-test: ir
	python3 tests/gdb_sessions.py ./ir
	python3 tests/gdb_sweep.py ./ir

# All outcomes of small guests, against a judge that takes each step of each thread; each order is recorded.
explore-test: ir
	python3 tests/exploring.py ./ir
	python3 tests/comparing.py ./ir

# Answers with names, against those without.
names-test: ir
	python3 tests/naming.py ./ir

# Runs of faults, shrunk to few context switches and recorded again.
shrink-test: ir
	python3 tests/shrinking.py ./ir

# The tests of sessions as a program, of which those about memory are run here. Proves them too.
TESTS := crates/ir_session_tests/out/ir_session_tests_tests

$(TESTS): $(SOURCES)
	python3 scripts/prove.py ir_session_tests
	cd crates/ir_session_tests && python3 ../../scripts/rt.py test -- memory_tests

# Each request for memory refused in turn, on the built program and in those tests. Needs Linux and a C compiler beside.
refuse: ir $(TESTS)
	python3 tests/refused_memory.py ./ir --tests $(TESTS)

# Images and traces that were cut or changed, opened by the program. Needs Linux and a C compiler beside.
mutate: ir
	python3 tests/damaged_files.py ./ir

# Host instructions of each operation of a guest, if valgrind is installed; millions of instructions per second, and the assembler's lines.
bench: ir
	python3 bench/instructions.py ./ir
	python3 scripts/prove.py ir_bench
	cd crates/ir_bench && python3 ../../scripts/rt.py run < stdin > out.txt && rm out.txt
	python3 bench/speed.py ./ir crates/ir_bench/out/ir_bench
	python3 bench/hunting.py ./ir
	python3 bench/shrinking.py ./ir
	python3 bench/traces.py ./ir
	python3 bench/exploring.py ./ir --large
	python3 bench/spin.py ./ir
