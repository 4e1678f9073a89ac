# What people type. The proofs are checked by Rattle's command `rt`, which has to be on the path.
PREFIX ?= /usr/local
PROGRAMS = nova novac
BUILT = $(foreach it,$(PROGRAMS),crates/$(it)/out/$(it))

SOURCES = crates.txt $(shell find crates -name out -prune -o -type f \( -name '*.rt' -o -name '*.antt' \) -print)
SHARE = $(DESTDIR)$(PREFIX)/share
# What `make install` puts below $(PREFIX)/share, as TO:FROM.
SHARED = man/man1/nova.1:docs/man/nova.1 man/man1/novac.1:docs/man/novac.1 bash-completion/completions/nova:editors/nova.bash \
	zsh/site-functions/_nova:editors/nova.zsh fish/vendor_completions.d/nova.fish:editors/nova.fish \
	$(foreach it,compiler ftdetect ftplugin syntax,vim/vimfiles/$(it)/nova.vim:editors/vim/$(it)/nova.vim)

.PHONY: all test rows try check bench install uninstall deb clean

# Proves and builds the programs.
all: $(BUILT)

# A program is built by a run of it, here on words that are refused, whenever a source is newer.
$(BUILT): $(SOURCES)
	cd crates/$(notdir $@) && { rt run -- absent || test -x out/$(notdir $@); }
	touch $@

# The gate: proofs, must-fail edits, tests and rows.
test:
	.ci/run

# The rows of tests/ on the programs as they are built; --build has rt build those that are lacking.
rows: all
	tests/run --build

# The programs without proof, for trying rows and for measuring: tests/run --programs out/unproved. This is no verdict.
try:
	bench/unproved

# Proves one crate over what earlier checks kept: make check CRATE=uc_isa
check:
	cd crates/$(CRATE) && rt check

bench: all
	cd crates/zo_bench && { rt run -- absent || test -x out/zo_bench; }
	bench/run

install: all
	install -d $(DESTDIR)$(PREFIX)/bin
	install $(BUILT) $(DESTDIR)$(PREFIX)/bin
	$(foreach it,$(SHARED),install -D -m 644 $(lastword $(subst :, ,$(it))) $(SHARE)/$(firstword $(subst :, ,$(it))) &&) true

uninstall:
	rm -f $(foreach it,$(PROGRAMS),$(DESTDIR)$(PREFIX)/bin/$(it)) $(foreach it,$(SHARED),$(SHARE)/$(firstword $(subst :, ,$(it))))

# A package for Debian, of the programs as they are built.
deb: all
	packaging/deb $(BUILT)

clean:
	rm -rf crates/*/out out
