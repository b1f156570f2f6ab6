# The C programs beside the library, and its package. tools/setup finds the compiler and, on Arm, the emulator, and installs what is missing.
#   make           the library's archive and everything below that is built of it
#   make programs  what tools/{listing,request,meter,modes,monitor,image,picture,review} run, and accident, agree and vectors, over the library
#   make host      the example host: then host/run --cut 25 --brief, host/run --plugin COMMAND, or host/run --chain 7 --brief
#   make bench     planning, decoding, the vet of a list and a meter's matrix, the library against plain C by gcc and by clang: times,
#                  instructions, bars; writes and bus time of typical changes
#   make tests     tests/run
#   make peers     Linux's reader of InfoFrames on every packet that we finish; fetches its source (Debian's linux-source), no part of the gate
#   make monitors  the EDIDs of real screens against Debian's edid-decode, whose source package has them: fetched then, no part of the gate
#   make install   the archive, the headers and a pkg-config file, the tools and the pages, into PREFIX (/usr/local), below DESTDIR where that
#                  is given; TARGET=aarch64-linux-gnu the archive for that processor (tools/archive --help has the four), without the tools
#   make install-tools  of these the tools (bin/station-review and so on), the pages and host/i2c.c (share/doc/station) alone
#   make archive   the archive for TARGET alone, target/archive/TARGET/libstation.a
#   make targets   the archives for other processors, tried under emulators: installs Debian's cross compilers and qemu, some minutes
#   make helps     writes what --help prints into programs/help, which the scripts of tools/ and host/run show before anything is built
#   make pages     pages of vendors' lists and of runs, into target/pages: what tests/browser looks at
#   make clean     takes away what make has built of C; what rt has proved and built stays, and so does the rest of target/
#   make help      this list
LIB      = target/staticlib/libstation.a
EXAMPLE  = $(shell sed -n 's/^ . So \([0-9a-f ]*\) is .*/\1/p' include/station.h)
FLAGS    = -std=c99 -D_GNU_SOURCE -Wall -Wextra -O2 -Iinclude '-DEXAMPLE="$(EXAMPLE)"'
HEADERS  = $(wildcard include/*.h programs/*.h host/*.h tests/*.h tests/*/*.h bench/*.h)
PROVED   = crates.txt $(wildcard crates/*/src/*.rt crates/*/specs/*.antt crates/*/proofs/*.antt)
PROGRAMS = $(addprefix target/c/,accident agree image listing meter modes monitor picture request review vectors)
BINARIES = $(PROGRAMS) $(addprefix target/c/,example host i2c i2c_fake bench tests)
ARCHIVE  = $(if $(TARGET),target/archive/$(TARGET)/libstation.a,$(LIB))
PREFIX   = /usr/local
TO       = $(DESTDIR)$(PREFIX)
VERSION  = $(shell sed -n 's/^.define STATION_VERSION "\(.*\)"/\1/p' include/station.h)

.PHONY: all programs host bench tests peers monitors install install-tools archive targets helps pages clean help
all: $(BINARIES)
programs: $(PROGRAMS)
host: target/c/host
	@echo "target/c/host is built; run it by host/run [--chip FILE] [--cut K] [--vsync AT,..] [--brief] [BYTES..], host/run --plugin COMMAND,"
	@echo "or host/run --chain SEED"
bench:
	@bench/run
peers:
	@tests/peers/run
monitors:
	@tests/monitors/run
tests:
	@tests/run
install: $(ARCHIVE) $(if $(TARGET),,install-tools)
	install -d $(TO)/include $(TO)/lib/pkgconfig $(TO)/share/doc/station
	install -m 644 include/station.h include/station_text.h $(TO)/include
	install -m 644 $(ARCHIVE) $(TO)/lib
	sed -e 's|@PREFIX@|$(PREFIX)|' -e 's|@VERSION@|$(VERSION)|' include/station.pc.in >$(TO)/lib/pkgconfig/station.pc
	install -m 644 LICENSE CHANGELOG.md $(TO)/share/doc/station
archive: $(ARCHIVE)
targets:
	@tests/targets/run --all
TOOLS    = image listing meter modes monitor picture request review
install-tools: $(addprefix target/c/,$(TOOLS))
	install -d $(TO)/bin $(addprefix $(TO)/share/doc/station/,docs host programs)
	for tool in $(TOOLS); do install -m 755 target/c/$$tool $(TO)/bin/station-$$tool || exit 1; done
	install -m 644 docs/*.md $(TO)/share/doc/station/docs
	install -m 644 README.md $(TO)/share/doc/station
	install -m 644 host/i2c.c $(TO)/share/doc/station/host
	install -m 644 programs/words.c programs/words.h $(TO)/share/doc/station/programs
helps: $(addprefix target/c/,$(TOOLS) host)
	mkdir -p programs/help
	setup=$$(tools/setup) && eval "$$setup" && for tool in $(TOOLS) host; do $$RUN target/c/$$tool --help >programs/help/$$tool || exit 1; done
pages: $(addprefix target/c/,listing picture request review)
	@tests/browser --pages
clean:
	rm -rf target/c
help:
	@sed -n 's/^#   //p' Makefile

target/c/accident: programs/accident.c programs/fields.c programs/factors.c programs/chip.c programs/words.c
target/c/agree: programs/agree.c programs/judge.c programs/fields.c programs/factors.c programs/chip.c programs/words.c
target/c/image: programs/image.c programs/rows.c programs/words.c
target/c/listing: programs/listing.c programs/table.c programs/registers.c programs/chip.c programs/words.c
target/c/meter: programs/meter.c programs/factors.c programs/words.c
target/c/modes: programs/modes.c programs/clocks.c programs/fits.c programs/fields.c programs/factors.c programs/words.c
target/c/monitor: programs/monitor.c programs/screen.c programs/dump.c programs/rows.c programs/clocks.c programs/fits.c programs/fields.c programs/factors.c \
  programs/words.c
target/c/picture: programs/picture.c programs/draw.c programs/chain.c programs/events.c programs/registers.c \
  programs/fields.c programs/factors.c programs/chip.c programs/words.c
target/c/request: programs/request.c programs/clocks.c programs/fits.c programs/fields.c programs/factors.c programs/words.c
target/c/review: programs/review.c programs/page.c programs/draw.c programs/chain.c programs/events.c programs/mend.c programs/list.c programs/sha256.c programs/judge.c programs/table.c \
  programs/registers.c programs/fits.c programs/fields.c programs/factors.c programs/chip.c programs/words.c
target/c/vectors: programs/vectors.c programs/clocks.c programs/fields.c programs/factors.c programs/words.c
target/c/example: host/example.c
target/c/host: host/host.c host/chain.c host/plugin.c programs/chain.c programs/events.c programs/fields.c programs/factors.c \
  programs/chip.c programs/words.c
target/c/i2c: host/i2c.c programs/words.c
target/c/i2c_fake: tests/i2c/fake.c programs/fields.c programs/factors.c programs/chip.c programs/words.c | host/i2c.c
target/c/bench: bench/bench.c bench/plain.c programs/fields.c programs/factors.c programs/words.c
target/c/tests: $(wildcard tests/*.c tests/model/*.c tests/wrong/*.c) bench/plain.c
target/c/tests: FLAGS += -pthread
target/c/bench target/c/tests: MORE = -lm
target/c/bench: MORE += $$(CC=$$CC bench/clang)
target/c/bench: bench/clang
$(BINARIES): $(HEADERS) $(LIB) Makefile
	@mkdir -p target/c
	@setup=$$(tools/setup) && eval "$$setup" && $$CC $(FLAGS) $(filter %.c,$^) $(LIB) $(MORE) -o $@

# The module of the proved build for another processor.
target/archive/%/libstation.a: $(PROVED) include/station.h tools/archive
	tools/archive $*

# An archive that is older than a source is proved and built anew.
$(LIB): $(PROVED)
	$(if $(shell command -v rt 2>/dev/null),,$(error The command rt is missing: install the Rattle kit that README.md names, and put its bin folder on the PATH))
	tools/library
