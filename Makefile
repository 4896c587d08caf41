# The commands of this project. `make test` is the gate, `make plan` the main job.

PREFIX ?= /usr/local
JOB ?= examples/plate.job
SLIPS ?=
BUNDLE ?= examples/month.bundle
N ?= 2000000
CC ?= cc
CFLAGS ?= -O2
WARNINGS = -Wall -Wextra -Wpedantic -Werror
TESTS = CABINET_CALLER="build/caller" build/cargo/release/cabinet-tests

C_WORDS = -std=c11 $(WARNINGS) $(CFLAGS) -Iinclude
c_program = $(CC) $(C_WORDS) $(1) build/libcabinet.a -o $(2)

# $(call built,NAME..): proves what has changed of these programs and builds each; $(call program,NAME) is where it is then. A program is built by
# running it: without input each ends at once and well.
program = crates/$(1)/out/$(1)
built_one = (cd crates/$(1) && rt run) </dev/null >/dev/null 2>build/$(1).log || { cat build/$(1).log; exit 1; }
built = mkdir -p build; $(foreach name,$(1),$(call built_one,$(name));)

# $(call script_for,PROGRAM,SCRIPT,TO): a script that runs a program. On installing, a program with a script goes to libexec, and its script to bin.
script_for = sed 's|@PROGRAM@|$(strip $(1))|' $(2) >$(3) && chmod 755 $(3)
install_program = cp $(call program,$(1)) $(DESTDIR)$(PREFIX)/bin/$(2)
install_script = mkdir -p $(DESTDIR)$(PREFIX)/libexec && cp $(call program,$(1)) $(DESTDIR)$(PREFIX)/libexec/$(2) && \
  $(call script_for,$(PREFIX)/libexec/$(2),$(3),$(DESTDIR)$(PREFIX)/bin/$(2))

.PHONY: test plan turned show report lib examples install bench soak tests try-examples try-listing try-inputs try-slips try-checks try-trembling try-judge try-report try-salvage try-words try-show picture need-rt need-cc need-cargo

# Everything: the toolchain's gate, which proves what no earlier run on this machine has passed, and must refuse every edit, none bad; and then, over what it
# has passed, the calls from C, the programs and many inputs. The gate's last line is told again at the end.
test: need-rt need-cc need-cargo
	@mkdir -p build
	@echo unfinished >build/ci.status
	@{ rt ci; echo $$? >build/ci.status; } 2>&1 | tee build/ci.log
	@[ "$$(cat build/ci.status)" = 0 ] && grep -q '^rt: ok' build/ci.log
	@! grep -E '^rt: ok.*, [1-9][0-9]* bad' build/ci.log
	@rm -f build/libcabinet.a
	@$(MAKE) --no-print-directory try-examples try-inputs try-slips try-checks try-trembling try-judge try-salvage try-listing try-report try-words try-show
	@tail -n 1 build/ci.log

# Proves what has changed, builds, and lists a job, in bytes or, where its name ends in .words, in words; with SLIPS=K, 0 to 3, its plans for up to
# K slips of the arm.
IN_WORDS = $(filter %.words,$(JOB))
PLANNED = $(if $(IN_WORDS),build/turned.job,$(JOB))
ifeq ($(SLIPS),)
plan: need-rt $(if $(IN_WORDS),turned)
	@mkdir -p build
	@$(call built,listing)
	@$(call program,listing) <$(PLANNED)
else
plan: lib need-cc $(if $(IN_WORDS),turned)
	@$(call c_program,examples/layers.c,build/layers)
	@build/layers $(SLIPS) <$(PLANNED)
endif

# The job in words as bytes; what is wrong with it is told, and then nothing is planned.
turned: build/cabinet-words
	@build/cabinet-words <$(JOB) >build/turned.job

# Tells the plan of a job in words: make show JOB=examples/arch.words
show: JOB = examples/plate.words
show: build/cabinet-show
	@build/cabinet-show $(JOB)

# What `make install` puts to bin as cabinet-words and cabinet-show: the programs, by scripts that give a status.
.PHONY: build/cabinet-words build/cabinet-show
build/cabinet-words: need-rt
	@mkdir -p build
	@$(call built,from_words)
	@$(call script_for,$(CURDIR)/$(call program,from_words),install/words.in,build/cabinet-words)

build/cabinet-show: need-rt
	@mkdir -p build
	@$(call built,show)
	@$(call script_for,$(CURDIR)/$(call program,show),install/show.in,build/cabinet-show)

# Proves what has changed, builds, and reports on a bundle.
report: need-rt
	@mkdir -p build
	@$(call built,report)
	@$(call program,report) <$(BUNDLE)

# A picture of a job in words and of its plan, beside the text: make picture JOB=examples/plate.words
picture: JOB = examples/plate.words
picture: build/cabinet-show
	@command -v dot >/dev/null 2>&1 || { echo "Missing: Graphviz, that is the command dot (on Debian the package graphviz)." >&2; exit 1; }
	@build/cabinet-show --dot $(JOB) >build/picture.dot
	@dot -Tsvg build/picture.dot -o $(basename $(JOB)).svg
	@echo "the picture is $(basename $(JOB)).svg"

# The archive for C. It is proved and made again when a file or folder of crates/ is newer, or the toolchain.
lib: build/libcabinet.a

build/libcabinet.a: crates.txt $(shell find crates -mindepth 2 -path 'crates/*/out' -prune -o -print) $(shell command -v rt 2>/dev/null) | need-rt
	@mkdir -p build
	@(cd crates/cabinet_c && rt lib) >build/lib.log 2>&1 || { cat build/lib.log; exit 1; }
	@cp crates/cabinet_c/out/libcabinet_c.a $@

examples: lib need-cc
	@$(call c_program,examples/plate.c,build/plate)
	@$(call c_program,examples/goal.c,build/goal)
	@$(call c_program,examples/tall.c,build/tall)
	@$(call c_program,examples/arm.c,build/arm)
	@$(call c_program,examples/layers.c,build/layers)

# The program that makes the calls of the tests, over the archive, and the independent planner with the many inputs.
tests: lib need-cc need-cargo
	@$(call c_program,tests/caller.c,build/caller)
	@CARGO_TARGET_DIR=$(CURDIR)/build/cargo cargo build --release --quiet --offline --manifest-path tests/Cargo.toml

try-examples: examples
	@build/plate >build/plate.out
	@diff examples/plate.out build/plate.out
	@build/goal >build/goal.out
	@diff examples/goal.out build/goal.out
	@build/tall build/tall.job >build/tall.out
	@diff examples/tall.out build/tall.out
	@cmp examples/tall.job build/tall.job
	@build/arm >build/arm.out
	@diff examples/arm.out build/arm.out
	@for slips in 0 1 2 3 4; do build/layers $$slips <examples/plate.job; done >build/layers.out
	@diff examples/layers.out build/layers.out
	@echo '#include "cabinet.h"' >build/header.cc
	@$(CC) -x c++ -std=c++11 $(WARNINGS) -Iinclude -fsyntax-only build/header.cc
	@echo "examples: One plate plays as stored, also with a goal from slips and with slips of the arm, and so does a tall cabinet; the header is C++ too"

try-inputs: tests
	@$(TESTS) run

try-slips: tests
	@$(TESTS) slips

try-checks: tests
	@$(TESTS) checks
	@$(call built,compare)
	@$(call script_for,$(CURDIR)/$(call program,compare),install/check.in,build/cabinet-check)
	@sh tests/checking/run $(CURDIR)/build/cargo/release/cabinet-tests $(CURDIR)/build/cabinet-check

try-trembling: tests
	@$(TESTS) trembling

try-judge: tests
	@$(TESTS) judges
	@$(call built,judge)
	@$(call script_for,$(CURDIR)/$(call program,judge),install/judge.in,build/cabinet-judge)
	@sh tests/judging/run $(CURDIR)/build/cargo/release/cabinet-tests $(CURDIR)/build/cabinet-judge

try-salvage: tests
	@$(TESTS) salvages
	@$(call built,mend)
	@sh tests/salvage/run $(CURDIR)/build/cargo/release/cabinet-tests $(CURDIR)/$(call program,mend)
	@$(TESTS) mended $(call program,mend)

try-listing: tests
	@$(call built,listing)
	@sh tests/listing/run $(CURDIR)/build/cargo/release/cabinet-tests $(CURDIR)/$(call program,listing)
	@$(TESTS) listings $(call program,listing)

try-report: tests
	@$(call built,report)
	@sh tests/report/run $(CURDIR)/build/cargo/release/cabinet-tests $(CURDIR)/$(call program,report)
	@$(TESTS) reports $(call program,report)

try-words: tests build/cabinet-words
	@sh tests/words/run $(CURDIR)/build/cabinet-words
	@sh tests/words/run $(CURDIR)/build/cargo/release/cabinet-tests turn
	@$(TESTS) words $(call program,from_words)
	@$(MAKE) --no-print-directory plan JOB=examples/plate.words SLIPS= | diff crates/listing/stdout -

try-show: tests build/cabinet-show
	@sh tests/show/run $(CURDIR)/build/cabinet-show
	@sh tests/show/run $(CURDIR)/build/cargo/release/cabinet-tests show
	@odd="build/$$(printf 'odd\377').words" && cp examples/plate.words "$$odd" && build/cabinet-show "$$odd" | cmp -s - examples/plate.told || { echo "show: a text whose name is no UTF-8 is not shown"; exit 1; }; rm "$$odd"
	@build/cabinet-show no-such-text 2>build/show.told; [ $$? = 2 ] && echo 'cabinet-show: no-such-text: cannot be opened' | cmp -s - build/show.told
	@$(TESTS) shown $(call program,show)

# More inputs: make soak N=10000000
soak: tests
	@$(TESTS) soak $(N)

# Times beside the same rounds in plain Rust and the independent planner, also into docs/BENCH.md.
bench: tests
	@$(call built,listing report)
	@$(TESTS) bench "$$(date +%Y-%m-%d)" $(call program,report) $(call program,listing) >build/bench.md
	@cat build/bench.md
	@{ echo '# Speed'; echo; cat build/bench.md; } >docs/BENCH.md

install: lib
	@$(call built,listing report mend show from_words compare judge)
	@mkdir -p $(DESTDIR)$(PREFIX)/lib/pkgconfig $(DESTDIR)$(PREFIX)/include $(DESTDIR)$(PREFIX)/bin
	@cp build/libcabinet.a $(DESTDIR)$(PREFIX)/lib/
	@cp include/cabinet.h $(DESTDIR)$(PREFIX)/include/
	@sed 's|@PREFIX@|$(PREFIX)|' cabinet.pc.in >$(DESTDIR)$(PREFIX)/lib/pkgconfig/cabinet.pc
	@$(call install_program,listing,cabinet-list)
	@$(call install_program,report,cabinet-report)
	@$(call install_program,mend,cabinet-salvage)
	@$(call install_script,show,cabinet-show,install/show.in)
	@$(call install_script,from_words,cabinet-words,install/words.in)
	@$(call install_script,compare,cabinet-check,install/check.in)
	@$(call install_script,judge,cabinet-judge,install/judge.in)
	@echo "installed the archive, the header, cabinet.pc, cabinet-list, cabinet-report, cabinet-salvage, cabinet-show, cabinet-words, cabinet-check and cabinet-judge under $(DESTDIR)$(PREFIX)"

need-rt:
	@command -v rt >/dev/null 2>&1 || { echo "Missing: the Rattle toolchain, that is the command rt on the PATH." >&2; exit 1; }

# The tests need a compiler of C and C++ and cargo. Root on Debian gets what is missing, anyone else its name.
need-cc:
	@sh tests/need c++ g++

need-cargo: need-cc
	@sh tests/need cargo cargo-web 1.88
