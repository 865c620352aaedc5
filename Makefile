# The command `rigpollen`, the libraries that it stands on, and how both are installed. For GNU make.
#
#   make                     the command as target/command/rigpollen, and the libraries for x86-64 and RV32
#   make test                the command's tests, and an installation tried
#   make install             into PREFIX, below DESTDIR where one is given
#   make uninstall           what `make install` with the same PREFIX and DESTDIR put there
#   make clean               removes the folder BUILD, and no library
#
# CC, CPPFLAGS, CFLAGS and LDFLAGS are the caller's. Two builds at the same time need a folder each: `make BUILD=FOLDER`.

PREFIX = /usr/local
BUILD = target/command
CFLAGS ?= -O2

isas = rv32imac rv32ima
library = target/staticlib/librigpollen.a
rv32_libraries = $(isas:%=target/rv32/%/librigpollen.a)
objects = $(patsubst command/%.c,$(BUILD)/%.o,$(sort $(wildcard command/*.c)))
compile = $(CC) -std=c99 -Wall -Wextra -Wpedantic -Werror -Iinclude $(CPPFLAGS) $(CFLAGS)
link = $(CC) $(CFLAGS) $(LDFLAGS)
version = $(shell sed -n 's/^.define RIGPOLLEN_VERSION "\(.*\)"$$/\1/p' include/rigpollen.h)

built = $(BUILD)/rigpollen $(library) $(rv32_libraries)

# What is installed, as seen from PREFIX.
installed = bin/rigpollen include/rigpollen.h lib/librigpollen.a $(isas:%=lib/rigpollen/%/librigpollen.a) \
    lib/pkgconfig/rigpollen.pc share/man/man1/rigpollen.1

# A text as one word of the shell.
quote = '$(subst ','\'',$(1))'
there = $(call quote,$(DESTDIR)$(PREFIX))

# $(call need,COMMAND,WHAT): stops with one line where the command is not on PATH.
need = $(if $(shell command -v $(firstword $(1)) 2>/dev/null),,$(error $(2) is not on PATH))

# A pkg-config file cannot hold every path: no blank, for one.
fit = $(shell printf '%s' $(call quote,$(PREFIX)) | LC_ALL=C grep -x '/[A-Za-z0-9/._+~@,=-]*')
ifneq ($(filter install uninstall,$(MAKECMDGOALS)),)
$(if $(fit),,$(error PREFIX is a path from / on, of letters, digits and /._+~@,=- alone, not '$(PREFIX)'))
endif

.PHONY: all test install uninstall clean libraries always
.DELETE_ON_ERROR:

all: $(built)

# The scripts see for themselves whether there is something to do.
libraries:
	$(call need,rt,the Rattle kit's command rt)
	@[ -e $(library) ] || echo 'proving the library: this takes minutes'
	@tools/library
	@tools/library-rv32

$(library) $(rv32_libraries): libraries ;

# Changes where a command line or the list of files does.
$(BUILD)/lines: always
	$(call need,$(CC),the C compiler $(firstword $(CC)))
	@mkdir -p $(BUILD)
	@printf '%s\n' $(call quote,$(compile)) $(call quote,$(link) $(objects)) >$@.new
	@if cmp -s $@.new $@; then rm $@.new; else mv $@.new $@; fi

$(BUILD)/%.o: command/%.c $(BUILD)/lines
	$(compile) -MMD -MP -c $< -o $@

$(BUILD)/rigpollen: $(objects) $(library) $(BUILD)/lines
	$(link) $(objects) $(library) -o $@

-include $(objects:.o=.d)

test:
	tests/command
	tests/install

# Where rt is not on PATH, as it may be for root, what was built before is installed.
install: $(if $(shell command -v rt 2>/dev/null),all)
	@for file in $(built); do [ -e "$$file" ] || { echo "make install: $$file is missing: make it first" >&2; exit 1; }; done
	install -D -m 755 $(BUILD)/rigpollen $(there)/bin/rigpollen
	install -D -m 644 include/rigpollen.h $(there)/include/rigpollen.h
	install -D -m 644 $(library) $(there)/lib/librigpollen.a
	install -D -m 644 target/rv32/rv32imac/librigpollen.a $(there)/lib/rigpollen/rv32imac/librigpollen.a
	install -D -m 644 target/rv32/rv32ima/librigpollen.a $(there)/lib/rigpollen/rv32ima/librigpollen.a
	install -D -m 644 command/rigpollen.1 $(there)/share/man/man1/rigpollen.1
	install -D -m 644 command/rigpollen.pc.in $(there)/lib/pkgconfig/rigpollen.pc
	sed -e 's|@PREFIX@|$(PREFIX)|' -e 's|@VERSION@|$(version)|' command/rigpollen.pc.in >$(there)/lib/pkgconfig/rigpollen.pc

# Folders that others may use too stay.
uninstall:
	rm -f $(installed:%=$(there)/%)
	rmdir $(isas:%=$(there)/lib/rigpollen/%) $(there)/lib/rigpollen 2>/dev/null || :

clean:
	rm -rf $(call quote,$(BUILD))
