# Builds fmpsim without a proof, and installs it with its manual, completions, tools, pages, examples and the library that runs C on it. `make install` builds nothing: PROGRAM
# is what `rt run` leaves in crates/fmpsim, or ./test.sh, or `make unproved`; in an archive of `make dist` it is bin/fmpsim.
#
#     make unproved
#     make library            out/libfmp.a, the machine in process (docs/HOST.md): what is not proved yet is proved first
#     make install PREFIX=$HOME/.local [PROGRAM=out/fmpsim-unproved]
#     make uninstall PREFIX=$HOME/.local
#     make dist [PROGRAM=out/fmpsim-unproved] [GATE=LOG]      out/fmpsim-VERSION-linux-x86_64.tar.gz, for machines without `rt`: see tools/dist

PREFIX = /usr/local
PROGRAM = $(firstword $(wildcard bin/fmpsim) crates/fmpsim/out/fmpsim)
UNPROVED = out/fmpsim-unproved
LIBRARY = out/libfmp.a
INSTALL = install
AR = ar
DIST = out

bin = $(DESTDIR)$(PREFIX)/bin
share = $(DESTDIR)$(PREFIX)/share
program = $(bin)/fmpsim
manual = $(share)/man/man1/fmpsim.1
bash = $(share)/bash-completion/completions/fmpsim
zsh = $(share)/zsh/site-functions/_fmpsim
fish = $(share)/fish/vendor_completions.d/fmpsim.fish
header = $(DESTDIR)$(PREFIX)/include/fmp.h
library = $(DESTDIR)$(PREFIX)/lib/libfmp.a

# What stands below share/fmpsim as it stands here, so that the links from page to page and to the examples hold there too. Each tool is also
# a command, fmpsim-from-toppers and so on.
own = $(share)/fmpsim
tools = from-toppers from-log to-log from-trace to-perfetto to-board run-list
modules = board_case.py board_files.py board_kit.py board_log.py board_machine.py board_play.py c_numbers.py fmpsim_program.py log_answers.py log_calls.py \
    log_lines.py log_order.py log_pools.py log_spread.py log_tasks.py log_written.py perfetto_tracks.py test_reports.py toppers_settings.py trace_lines.py
pages = BOARD.md GUIDE.md GUIDE.ja.md HOST.md FORMATS.md PROFILE.md DECISIONS.md DESIGN.md view.png wave.png
files = LICENSE include/fmp.h $(tools:%=tools/%) $(modules:%=tools/%) $(pages:%=docs/%) host/README.md host/fmphost.mk editors/README.md tests/play \
    $(shell find board tests/cases editors/vim editors/vscode tools/toppers-stub docs/formats examples host/include host/src host/gen host/programs -type f)

.PHONY: unproved library install uninstall dist

unproved:
	@tests/unproved '$(UNPROVED)'
	@echo 'to install it: make install PROGRAM=$(UNPROVED)'

# One archive: what rt made of the crate fmp_c, and the kit's three functions that call malloc, realloc and free.
library:
	@cd crates/fmp_c && rt lib
	@mkdir -p '$(dir $(LIBRARY))'
	@rm -rf '$(LIBRARY)' '$(LIBRARY).parts' && mkdir '$(LIBRARY).parts'
	@kit=$$(dirname "$$(dirname "$$(realpath "$$(command -v rt)")")") && from=$$PWD && cd '$(LIBRARY).parts' && \
	    $(AR) x "$$from/crates/fmp_c/out/libfmp_c.a" && $(AR) x "$$kit/c/liblibc_c.a"
	@$(AR) rc '$(LIBRARY)' '$(LIBRARY).parts'/*.o && rm -rf '$(LIBRARY).parts'
	@echo 'the library: $(LIBRARY), with include/fmp.h'

# GATE is a file whose last lines are those of the gate that made the program.
dist:
	@tools/dist --program '$(PROGRAM)' --library '$(LIBRARY)' --gate '$(GATE)' --into '$(DIST)'

# The library is installed where there is one.
install:
	@test -x '$(PROGRAM)' || { echo 'there is no program $(PROGRAM): rt run in crates/fmpsim builds one; make unproved one without a proof, $(UNPROVED)' >&2; exit 1; }
	$(INSTALL) -D -m 755 '$(PROGRAM)' '$(program)'
	$(INSTALL) -D -m 644 man/fmpsim.1 '$(manual)'
	$(INSTALL) -D -m 644 completions/fmpsim.bash '$(bash)'
	$(INSTALL) -D -m 644 completions/_fmpsim '$(zsh)'
	$(INSTALL) -D -m 644 completions/fmpsim.fish '$(fish)'
	@test ! -e '$(LIBRARY)' || { $(INSTALL) -D -m 644 '$(LIBRARY)' '$(library)' && $(INSTALL) -D -m 644 include/fmp.h '$(header)'; }
	@echo 'the tools, the pages and the examples: $(own)'
	@for file in $(files); do \
	    mode=644; test ! -x "$$file" || mode=755; \
	    $(INSTALL) -D -m "$$mode" "$$file" '$(own)'/"$$file" || exit 1; \
	done
	@for tool in $(tools); do ln -sf "../share/fmpsim/tools/$$tool" '$(bin)'/"fmpsim-$$tool" || exit 1; done
	@ln -sf ../share/fmpsim/host/gen/fmphost-cfg '$(bin)/fmphost-cfg'

# Files that this version does not know stay, and their folders.
uninstall:
	rm -f '$(program)' '$(manual)' '$(bash)' '$(zsh)' '$(fish)' '$(header)' '$(library)'
	@for tool in $(tools); do rm -f '$(bin)'/"fmpsim-$$tool"; done
	rm -f '$(bin)/fmphost-cfg'
	@for file in $(files); do rm -f '$(own)'/"$$file"; done
	@test ! -d '$(own)' || find '$(own)' -depth -type d -empty -delete
