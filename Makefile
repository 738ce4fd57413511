# Installs what is built, and makes a Debian package of it. The program itself is built by ./syswcet, and the small ones beside
# it by tools/built, each with its proofs.
#
#   make install PREFIX=/usr/local     program, tools, man pages, completion, headers, cores and docs
#   make uninstall PREFIX=/usr/local
#   make deb                           out/syswcet_VERSION_ARCHITECTURE.deb, by debhelper
#
# PROGRAMS is a folder that has all of them, where they aren't in crates/*/out.
PREFIX = /usr/local
PROGRAMS =
NAMES = syswcet list_states list_rows
TOOLS = draft draft.py analyse analyse.py outside_bound outside_bound.py code_loops.py program_code.py programs.py draw_trace.py
built = $(if $(PROGRAMS),$(PROGRAMS)/$(1),crates/$(1)/out/$(1))
root = $(DESTDIR)$(PREFIX)

help:
	@sed -n 's/^# \{0,1\}//p' Makefile

install:
	@for name in $(foreach name,$(NAMES),$(call built,$(name))); do \
	    [ -x "$$name" ] || { echo "install: $$name isn't there; ./syswcet and tools/built build the programs" >&2; exit 1; }; \
	done
	install -d $(root)/bin $(root)/lib/syswcet/programs $(root)/lib/syswcet/tools $(root)/include/syswcet \
	    $(root)/share/syswcet/cores $(root)/share/syswcet/slurm $(root)/share/syswcet/osek $(root)/share/man/man1 \
	    $(root)/share/bash-completion/completions $(root)/share/doc/syswcet
	install $(foreach name,$(NAMES),$(call built,$(name))) $(root)/lib/syswcet/programs/
	install $(filter-out %.py,$(addprefix tools/,$(TOOLS))) $(root)/lib/syswcet/tools/
	install -m 644 $(filter %.py,$(addprefix tools/,$(TOOLS))) $(root)/lib/syswcet/tools/
	ln -sf ../lib/syswcet/programs/syswcet $(root)/bin/syswcet
	ln -sf ../lib/syswcet/programs/list_states $(root)/bin/syswcet-list-states
	ln -sf ../lib/syswcet/tools/draft $(root)/bin/syswcet-draft
	ln -sf ../lib/syswcet/tools/analyse $(root)/bin/syswcet-analyse
	ln -sf ../lib/syswcet/tools/outside_bound $(root)/bin/syswcet-outside-bound
	install -m 644 examples/osek/osek.h examples/osek/flow.h $(root)/include/syswcet/
	install -m 644 share/cores/*.json $(root)/share/syswcet/cores/
	install share/slurm/certify.sh $(root)/share/syswcet/slurm/
	install -m 644 examples/osek/link.ld examples/osek/rules.mk $(root)/share/syswcet/osek/
	install -m 644 docs/*.1 $(root)/share/man/man1/
	install -m 644 share/syswcet.bash $(root)/share/bash-completion/completions/syswcet
	install -m 644 share/tools.bash $(root)/share/bash-completion/completions/syswcet-draft
	ln -sf syswcet-draft $(root)/share/bash-completion/completions/syswcet-analyse
	install -m 644 README.md CHANGELOG.md docs/*.md docs/*.svg $(root)/share/doc/syswcet/

uninstall:
	rm -f $(root)/bin/syswcet $(addprefix $(root)/bin/syswcet-,list-states draft analyse outside-bound) \
	    $(addprefix $(root)/share/man/man1/,$(notdir $(wildcard docs/*.1))) \
	    $(addprefix $(root)/share/bash-completion/completions/,syswcet syswcet-draft syswcet-analyse)
	rm -rf $(root)/lib/syswcet $(root)/include/syswcet $(root)/share/syswcet $(root)/share/doc/syswcet

# built in a folder of its own, so that nothing is left beside the sources or in the folder above
deb:
	@command -v dh >/dev/null && command -v dpkg-buildpackage >/dev/null || { echo "deb: debhelper or dpkg-dev is missing" >&2; exit 1; }
	rm -rf out/deb
	mkdir -p out/deb/tree/programs
	cp -a Makefile debian docs examples share tools README.md CHANGELOG.md out/deb/tree/
	cp $(foreach name,$(NAMES),$(call built,$(name))) out/deb/tree/programs/
	cd out/deb/tree && dpkg-buildpackage -b -us -uc
	mv out/deb/syswcet_*.deb out/
	rm -rf out/deb

.PHONY: help install uninstall deb
