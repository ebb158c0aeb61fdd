# make skim: the tool, on a reel. make test: the gate. make test-long: its comparisons at full size, and every wrong program.
# make refusals: the wrong programs alone. make bench: bench/RESULTS.md, the tool, whole jobs and kernels, timed. make rust: the Rust
# binding's tests. make vectors: the stored answers, made again. make picture: docs/reels.png. make install and make uninstall: the tool,
# its manual page, the library and its header, below PREFIX, staged in DESTDIR if that is given.
SHELL := /bin/bash
RUSTC := rustc --edition 2021 -O
LINK_KERNELS := -L target/staticlib -l static=kernels_c
LINK_STREAM := -L target/staticlib -l static=sonic_c

# The Rust original, unchanged: src/lib.rs of libsonic-rs. What needs it says so in one line where it is not at hand.
ORIGINAL ?= ../shared/docs/src/src/lib.rs
AT_HAND := $(wildcard $(ORIGINAL))

# A command of rt, $(1): the lines of rt itself (but what it begins with), and where it fails all that it wrote. $(2) keeps that.
told = set -o pipefail; { $(1); } 2>&1 | tee $(2) | sed -un '/ begins with /d; /^rt: /p' || { cat $(2); exit 1; }

# The same in the folder of the crate $(1).
told_in = $(call told,(cd crates/$(1) && $(2)),target/$(1).log)

.PHONY: skim test test-long compare differential bites tool refusals bench rust vectors picture program kernels stream
.PHONY: install install-built uninstall
.SILENT:
.NOTPARALLEL:

# Proves and builds the skim tool, and skims the reel of its crate: five seconds, two voices made by tools/make_reel.py. At
# this speed short periods of the second voice give no frame, and are passed over.
skim: program
	tools/skim.sh --map target/reel.map < crates/skim/stdin > target/reel.pcm
	echo "the reel crates/skim/stdin is skimmed to target/reel.pcm (8,000 Hz, mono, 16-bit little-endian PCM); target/reel.map tells what was passed over"
	echo "to skim your own: tools/skim.sh < in.pcm > out.pcm; tools/skim.sh --help tells more"

# Every proof, must-fail edit and program, none of the edits bad; then the other wrong programs beside the comparisons. The last line is
# that of `rt ci`.
test:
	log=$$(mktemp); trap 'rm -f "$$log"' EXIT; \
	{ $(call told,rt ci,"$$log"); } && ! grep -E '^rt: ok.*, [0-9]+ bad' "$$log" && { \
	tools/refusals.py & refusals=$$!; \
	$(MAKE) --no-print-directory compare BUILT=yes; compared=$$?; \
	wait $$refusals && test $$compared = 0; } && tail -n 1 "$$log"

compare: target/tests/floats target/tests/narrowing target/tests/removal target/tests/wave target/tests/wave_file target/tests/header \
	target/tests/environment differential rust tool
	target/tests/narrowing 20
	target/tests/floats 5
	target/tests/removal
	target/tests/wave
	tests/wave_files.py target/tests/wave_file
	target/tests/header
	target/tests/environment
	tests/install.sh
	tests/rules.py

test-long: RUNS := long
test-long: JOBS := 5000
test-long: target/tests/floats target/tests/narrowing differential tool refusals
	target/tests/narrowing 1000
	target/tests/floats 200

# Every wrong program and wrong definition.
refusals:
	tools/refusals.py --long --must-fail

# The stream for C beside the original, call by call: fixed runs, or random ones with the seed of the day; and two reels.
RUNS := fixed
differential: $(if $(AT_HAND),target/tests/differential)
ifdef AT_HAND
	target/tests/differential reels
	target/tests/differential $(RUNS)
else
	echo "differential: no original at $(ORIGINAL), not compared"
endif

# The skim tool as its users meet it, and beside the original and its copies on random jobs.
JOBS := 200
SKIM_COPIES := $(addprefix target/tests/skim_,stepping_over largest largest_stepping_over)
tool: program target/tests/skim_in_c $(if $(AT_HAND),target/tests/skim $(SKIM_COPIES))
	tools/make_reel.py 62:24000 34:16000 | cmp - crates/skim/stdin
	tests/skim.py tools/skim.sh target/tests/skim_in_c tools/make_reel.py
	tests/skim_wave.py tools/skim.sh tools/make_reel.py
ifdef AT_HAND
	tests/skim_original.py target/bin/skim target/tests/skim $(SKIM_COPIES) $(JOBS)
else
	echo "tool: no original at $(ORIGINAL), not compared"
endif

# That the fixed runs find every wrong edit of the model.
bites: target/tests/differential
	target/tests/differential bites

PREFIX ?= /usr/local
PLACE = $(DESTDIR)$(PREFIX)
VERSION := $(shell sed -n 's/^version = "\(.*\)"$$/\1/p' bindings/rust/Cargo.toml)
INSTALLED := bin/skim libexec/kelpladder/skim lib/libkelpladder.a include/kelpladder.h lib/pkgconfig/kelpladder.pc share/man/man1/skim.1

install: program stream install-built

# Puts what is built, and proves nothing: for another user than the one who builds, by `make program stream`.
install-built:
	case "$(PREFIX)" in /*) ;; *) echo "install: PREFIX is $(PREFIX), and must begin with /"; exit 1; esac
	install -D tools/skim.sh "$(PLACE)/bin/skim"
	install -D target/bin/skim "$(PLACE)/libexec/kelpladder/skim"
	install -D -m 644 target/staticlib/libsonic_c.a "$(PLACE)/lib/libkelpladder.a"
	install -D -m 644 include/kelpladder.h "$(PLACE)/include/kelpladder.h"
	install -D -m 644 kelpladder.pc.in "$(PLACE)/lib/pkgconfig/kelpladder.pc"
	sed -i 's|@PREFIX@|$(PREFIX)|; s|@VERSION@|$(VERSION)|' "$(PLACE)/lib/pkgconfig/kelpladder.pc"
	install -D -m 644 tools/skim.1 "$(PLACE)/share/man/man1/skim.1"
	echo "installed below $(PLACE): $(INSTALLED)"

# Only the files that install puts; other files and the folders that others use stay.
uninstall:
	for file in $(INSTALLED); do rm -f "$(PLACE)/$$file"; done
	[ ! -d "$(PLACE)/libexec/kelpladder" ] || rmdir --ignore-fail-on-non-empty "$(PLACE)/libexec/kelpladder"
	echo "removed from $(PLACE): $(INSTALLED)"

# Writes bench/RESULTS.md, on a machine with no other work; with ROUNDS=1 or some more a quick one in target/bench. The other programs in it
# are Debian's packages sonic, sox, soundstretch, rubberband-cli and ffmpeg, those that are installed. espeak-ng, one too, reads one of the
# reels, with sox.
bench: target/bench/kernels target/bench/jobs program
	bench/results.py

# The tests compare with the original too where it is there.
rust: stream
	cd bindings/rust && KELPLADDER_ORIGINAL=$(abspath $(ORIGINAL)) cargo test --offline --quiet

# Built for every x86-64, where rt's own choice is x86-64-v2: a static library does not check the processor that it runs on.
CPU := --cpu=x86-64

# `rt run` proves, builds and runs: here it asks for the version. With BUILT the tool is that of `rt ci`, for x86-64-v2.
program:
	mkdir -p target/tests
ifndef BUILT
	echo "proving and building the skim tool; from nothing that takes some minutes"
	$(call told_in,skim,rt run $(CPU) -- --version < /dev/null)
endif
	install -D crates/skim/out/skim target/bin/skim

kernels:
	echo "proving and building the entry points to inner functions"
	mkdir -p target/tests target/bench
	$(call told_in,kernels_c,rt lib $(CPU))
	install -D -m 644 crates/kernels_c/out/libkernels_c.a target/staticlib/libkernels_c.a

stream:
	echo "proving and building the library for C"
	mkdir -p target/tests target/bench
	$(call told_in,kelpladder_c,rt lib $(CPU))
	install -D -m 644 crates/kelpladder_c/out/libkelpladder_c.a target/staticlib/libsonic_c.a

target/tests/floats: tests/floats.rs kernels
	$(RUSTC) $< -o $@ $(LINK_KERNELS)

target/tests/removal: tests/removal.rs tests/signals.rs kernels stream
	$(RUSTC) $< -o $@ $(LINK_KERNELS) $(LINK_STREAM)

target/tests/wave: tests/wave.rs tests/signals.rs $(wildcard tests/wave/*.rs) bindings/rust/src/calls.rs stream
	$(RUSTC) $< -o $@ $(LINK_STREAM)

target/tests/narrowing: tests/narrowing.c kernels
	$(CC) -O2 -Wall -Wextra -Werror $< target/staticlib/libkernels_c.a -o $@ -lm

target/tests/header target/tests/environment target/tests/wave_file: target/tests/%: tests/%.c include/kelpladder.h stream
	$(CC) -std=c99 -O2 -Wall -Wextra -Wpedantic -Werror -I include $< target/staticlib/libsonic_c.a -o $@

target/tests/skim_in_c: examples/skim.c include/kelpladder.h stream
	$(CC) -std=c99 -O2 -Wall -Wextra -Wpedantic -Werror -I include $< target/staticlib/libsonic_c.a -o $@

# The judges of streams that find the largest of several best periods, or step over: copies of the original's text.
target/judges.rs: tools/judges.py tests/judges.rs $(AT_HAND)
	mkdir -p target
	{ cat tests/judges.rs && tools/judges.py $(ORIGINAL); } > $@.new
	mv $@.new $@

# The original's text with the test or the benchmark joined to it, so that its private fields and functions can be used.
target/tests/differential: tests/differential.rs tests/signals.rs $(wildcard tests/differential/*.rs tests/differential/model/*.rs tests/differential/model/edits/*.rs) target/judges.rs stream
	cat $(ORIGINAL) $< > $@.rs
	$(RUSTC) -C overflow-checks=on -A warnings --cfg library $@.rs -o $@ $(LINK_STREAM)

target/tests/skim: tests/skim.rs
	cat $(ORIGINAL) $< > $@.rs
	$(RUSTC) -C overflow-checks=on -A warnings $@.rs -o $@

# The same with the copies.
$(SKIM_COPIES): target/tests/skim_%: tests/skim.rs tools/judges.py
	{ tools/judges.py $(ORIGINAL) $* && cat $<; } > $@.rs
	$(RUSTC) -C overflow-checks=on -A warnings $@.rs -o $@

target/bench/kernels: bench/kernels.rs kernels
	test -f $(ORIGINAL) || { echo "bench: no original at $(ORIGINAL)"; exit 1; }
	cat $(ORIGINAL) $< > $@.rs
	$(RUSTC) -A warnings $@.rs -o $@ $(LINK_KERNELS)

target/bench/jobs: bench/jobs.rs $(if $(AT_HAND),target/judges.rs) stream
	test -f $(ORIGINAL) || { echo "bench: no original at $(ORIGINAL)"; exit 1; }
	cat $(ORIGINAL) $< > $@.rs
	$(RUSTC) -A warnings $@.rs -o $@ $(LINK_STREAM)

# The stored answers of crates/vectors, made again from the original's text with tools/vectors joined to it: they must be the stored ones.
vectors: $(if $(AT_HAND),target/judges.rs)
	test -f $(ORIGINAL) || { echo "vectors: no original at $(ORIGINAL)"; exit 1; }
	mkdir -p target/vectors
	cat $(ORIGINAL) tools/vectors/*.rs > target/vectors/make.rs
	$(RUSTC) -C overflow-checks=on -A warnings target/vectors/make.rs -o target/vectors/make
	target/vectors/make target/vectors > target/vectors/touched
	cmp target/vectors/stdin crates/vectors/stdin
	cmp target/vectors/stdout crates/vectors/stdout
	tail -n 1 target/vectors/touched

# The picture in the README of reel two, stopped and stepped over, drawn by gnuplot, a Debian package.
picture: skim
	command -v gnuplot > target/gnuplot.log || apt-get install --yes gnuplot-nox >> target/gnuplot.log
	tools/draw_reels.py target/bin/skim docs/reels.png
