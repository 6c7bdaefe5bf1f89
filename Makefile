# The targets. `make` and `make help` print them (each line of this comment that begins with `make`).
#
# make help      prints this list
# make try       shows a cluster on loopback, with programs that are not proved: a crash, a takeover, a move. Three minutes
# make run       the same with the proved programs, which it builds first
# make build     proves boothd, booth, geostore and booth-follow, and leaves the programs in out/. Half an hour or more
# make check     the gate: proves and tests every crate
# make machines  as root: boots three machines with PostgreSQL and the package, and tests them through faults
# make clusters  as root: boots two Pacemaker clusters and an arbitrator with the package, and tests them through faults
# make deb       builds a Debian package, out/booth-proved_VERSION_amd64.deb, the same bytes each time
# make install   installs the same files; PREFIX= is /usr/local by default, DESTDIR= puts them below another directory
# make uninstall removes what make install has installed

# one file has all programs, and is the one that it is run as: these are links to it
PROGRAM_LINKS := booth geostore booth-follow
PROGRAMS := boothd $(PROGRAM_LINKS)
# what is written in Python, the modules of it, and what is run as python3 MODULE
TOOLS := booth-status booth-record booth-switchover booth-postgresql booth-setup booth-pacemaker booth-lease-guard
TOOL_MODULES := changes checking configuration console_events console_http console_markup console_page console_serving \
  console_style doctor doctor_cluster doctor_finding doctor_machine ending exporting follow_checks frames judging key_file \
  lease_daemons lease_ending lease_guarding lease_holding lists looking \
  pacemaker_asking pacemaker_checks pacemaker_cib pacemaker_clocks pacemaker_fencing pacemaker_following \
  pacemaker_margin pacemaker_plan pacemaker_setup pacemaker_status pacemaker_switching \
  postgresql_finding postgresql_promotion postgresql_rebuilding postgresql_server postgresql_setup postgresql_showing \
  postgresql_watching problems record_file record_silence service_problems service_state services setup_bundle \
  setup_cluster setup_commands setup_member setup_steps showing site_records state_file switching takeovers timeline viewing ways wording
# what is written in the shell, for operators; and what units, followers and daemons run
SCRIPTS := booth-keygen booth-service
HELPERS := $(notdir $(wildcard packaging/follow-*)) handler-follow clock-wait site-keep site-records \
  service-runnable arbitrator-ready
SERVICES := booth@.service booth-follow@.service booth-postgresql@.service booth-lease-guard.service \
  booth-arbitrator.service booth-console.service
# the resource agent of Pacemaker, under its own name and that of the C program's, by which pcs and crm know it
AGENTS := booth/boothd pacemaker/booth-site
VERSION := 0.2.0
PREFIX ?= /usr/local
SBIN := $(PREFIX)/sbin
MAN := $(PREFIX)/share/man
UNITS := $(PREFIX)/lib/systemd/system
USERS := $(PREFIX)/lib/sysusers.d
COMPLETIONS := $(PREFIX)/share/bash-completion/completions
DOCS := $(PREFIX)/share/doc/booth-proved
MODULES := $(PREFIX)/share/booth-proved
# (needrestart and Pacemaker read no other folder; below a prefix of one's own nothing is put there)
SYSCONF ?= $(if $(filter /usr /usr/local,$(PREFIX)),/etc,$(PREFIX)/etc)
OCF ?= $(if $(filter /usr /usr/local,$(PREFIX)),/usr,$(PREFIX))/lib/ocf/resource.d
PACKAGE := out/booth-proved_$(VERSION)_amd64.deb
SOURCES := crates.txt HANDLES $(shell find crates/*/src crates/*/specs crates/*/proofs 2>/dev/null)
# from the programs to the modules, so that what is installed below DESTDIR runs there too
TO_MODULES := $(shell realpath -ms --relative-to="$(SBIN)" "$(MODULES)")
NO_RT := the command rt is missing: install the Rattle kit, as README.md says under "Build and install"
NEEDS_RT := command -v rt >/dev/null || { echo 'make: $(NO_RT)' >&2; exit 1; }

NEEDS_PYTHON := command -v python3 >/dev/null || { echo 'make: the command python3 is missing' >&2; exit 1; }

.PHONY: help try build run check machines clusters install uninstall deb

help:
	@sed -n 's/^# \(make .*\)/\1/p' Makefile

build: $(PROGRAMS:%=out/%)

# (what is missing is said before the proof, and not after it)
run:
	@$(NEEDS_PYTHON)
	@$(MAKE) --no-print-directory build
	@python3 tools/demo.py

try:
	@$(NEEDS_PYTHON)
	@$(NEEDS_RT)
	@python3 tools/trying.py

check:
	@$(NEEDS_RT)
	rt ci

machines: $(PACKAGE)
	@$(NEEDS_PYTHON)
	@python3 tests/machines.py

clusters: $(PACKAGE)
	@$(NEEDS_PYTHON)
	@python3 tests/clusters.py
	@python3 tests/habits.py

# documents for developers of Booth, which stay in the source tree
DEVELOPER_DOCS := $(foreach name,README ARCHITECTURE DECISIONS DEFINITIONS,docs/$(name).md)

# the kinds of files in examples/
EXAMPLES := cfg conf json py service sql timer yml

# what is installed, as TARGET:SOURCE:MODE
INSTALLED := $(SBIN)/boothd:out/boothd:755 \
  $(foreach name,$(SCRIPTS) $(TOOLS),$(SBIN)/$(name):packaging/$(name):755) \
  $(foreach name,$(TOOL_MODULES),$(MODULES)/$(name).py:tools/$(name).py:644) \
  $(foreach name,$(HELPERS),$(MODULES)/$(name):packaging/$(name):755) \
  $(foreach name,service-state.sh service-switch.sh,$(MODULES)/$(name):packaging/$(name):644) \
  $(SYSCONF)/needrestart/conf.d/booth.conf:packaging/needrestart.conf:644 \
  $(MODULES)/journal.conf:packaging/journal.conf:644 \
  $(foreach page,$(wildcard man/*.5 man/*.8),$(MAN)/man$(subst .,,$(suffix $(page)))/$(notdir $(page)):$(page):644) \
  $(foreach program,$(PROGRAMS) $(TOOLS) booth-service,$(COMPLETIONS)/$(program):packaging/booth.bash:644) \
  $(USERS)/booth.conf:packaging/booth.sysusers:644 \
  $(DOCS)/README.md:README.md:644 \
  $(DOCS)/SECURITY.md:SECURITY.md:644 \
  $(DOCS)/copyright:packaging/copyright:644 \
  $(DOCS)/changelog:packaging/changelog:644 \
  $(foreach doc,$(filter-out $(DEVELOPER_DOCS),$(wildcard docs/*.md docs/*.svg docs/*.png)),$(DOCS)/$(notdir $(doc)):$(doc):644) \
  $(foreach file,$(wildcard $(EXAMPLES:%=examples/*.%)),$(DOCS)/examples/$(notdir $(file)):$(file):644) \
  $(foreach agent,$(AGENTS),$(OCF)/$(agent):packaging/boothd.ocf:755)

install: build
	@for each in $(INSTALLED); do \
	  target=$${each%%:*}; rest=$${each#*:}; \
	  install -D -m $${rest##*:} $${rest%%:*} "$(DESTDIR)$$target" || exit 1; \
	  case $$target in \
	    *.5 | *.8 | *.md) sed -i 's|/usr/share/doc/booth-proved|$(DOCS)|g; s|/usr/share/booth-proved|$(MODULES)|g' \
	      "$(DESTDIR)$$target" || exit 1 ;; \
	    $(DOCS)/examples/*.service | $(DOCS)/examples/*.cfg) \
	      sed -i 's|/usr/sbin/|$(SBIN)/|g' "$(DESTDIR)$$target" || exit 1 ;; \
	    $(SBIN)/booth-status | $(SBIN)/booth-record | $(SBIN)/booth-switchover | $(SBIN)/booth-postgresql | \
    $(SBIN)/booth-setup | $(SBIN)/booth-pacemaker | $(SBIN)/booth-lease-guard) \
	      sed -i 's|^MODULES = .*|MODULES = "$(TO_MODULES)"|' "$(DESTDIR)$$target" || exit 1 ;; \
	    $(SBIN)/booth-service) sed -i 's|^SHARE=.*|SHARE="$(TO_MODULES)"|' "$(DESTDIR)$$target" || exit 1 ;; \
    $(MODULES)/site-keep | $(OCF)/*) \
      sed -i 's|@SBIN@|$(SBIN)|g; s|@SHARE@|$(MODULES)|g' "$(DESTDIR)$$target" || exit 1 ;; \
	  esac; \
	done
	@for link in $(PROGRAM_LINKS); do ln -sf boothd "$(DESTDIR)$(SBIN)/$$link" || exit 1; done
	@install -d -m 755 "$(DESTDIR)$(UNITS)"
	@for unit in $(SERVICES); do \
	  sed 's|@SBIN@|$(SBIN)|g; s|@SHARE@|$(MODULES)|g' packaging/$$unit > "$(DESTDIR)$(UNITS)/$$unit" && \
	  chmod 644 "$(DESTDIR)$(UNITS)/$$unit" || exit 1; \
	done

uninstall:
	@for each in $(INSTALLED); do rm -f "$(DESTDIR)$${each%%:*}"; done
	@for unit in $(SERVICES); do rm -f "$(DESTDIR)$(UNITS)/$$unit"; done
	@for link in $(PROGRAM_LINKS); do rm -f "$(DESTDIR)$(SBIN)/$$link"; done
	@rmdir "$(DESTDIR)$(DOCS)/examples" "$(DESTDIR)$(DOCS)" "$(DESTDIR)$(MODULES)" 2>/dev/null || true

deb: $(PACKAGE)

# the time of all that is in the package: that of the last commit, or, outside git, that of the last entry of the changelog
EPOCH = $(or $(SOURCE_DATE_EPOCH),$(shell git log -1 --format=%ct 2>/dev/null || \
  date -d "$$(sed -n 's/^ -- .*>  //p' packaging/changelog | head -n 1)" +%s))
# what stands in a program that was proved; rt try, which proves nothing, leaves it out
PROVED_MARK := rattle logic=
# (the tests build packages that are not compressed)
COMPRESSION := xz
KIT = $(or $(shell rt version 2>/dev/null),an unknown kit)

$(PACKAGE): build $(wildcard packaging/*)
	@rm -rf out/deb out/booth-proved_*.deb
	@if ! grep -aq '$(PROVED_MARK)' out/boothd && [ -z "$(UNPROVED)" ]; then \
	  echo 'make: out/boothd is not proved: make build proves it; make deb UNPROVED=1 packs it as it is, and says so' >&2; \
	  exit 1; fi
	@$(MAKE) --no-print-directory install PREFIX=/usr DESTDIR=out/deb
	@# (the code stays as it was proved: names alone go)
	@strip out/deb/usr/sbin/boothd 2>/dev/null || true
	@# (dpkg-deb takes no other modes, whatever the umask gave)
	@install -d -m 755 out/deb/DEBIAN
	@sed 's|@VERSION@|$(VERSION)|' packaging/control > out/deb/DEBIAN/control
	@if ! grep -aq '$(PROVED_MARK)' out/boothd; then \
	  sed -i -e 's|^\(Description:.*\), proved|\1, NOT PROVED|' -e '/^ another site takes/,$$d' out/deb/DEBIAN/control && \
	  printf '%s\n' ' another site takes the ticket over if the holder falls silent. The programs' \
	    ' of this package were not proved: use them for tests only.' >> out/deb/DEBIAN/control; fi
	@chmod 644 out/deb/DEBIAN/control
	@install -m 755 packaging/postinst packaging/prerm packaging/postrm out/deb/DEBIAN
	@install -m 644 packaging/conffiles out/deb/DEBIAN
	@find out/deb/usr/share/man out/deb/usr/share/doc/booth-proved/changelog -type f -exec gzip -9n {} +
	@python3 tools/spdx.py out/deb '$(VERSION)' '$(EPOCH)' '$(KIT)' > out/spdx.json
	@install -m 644 out/spdx.json out/deb/usr/share/doc/booth-proved/booth-proved.spdx.json && rm out/spdx.json
	@# (the same files give the same package, whenever and wherever it is made)
	@find out/deb -exec touch --no-dereference --date=@$(EPOCH) {} +
	@SOURCE_DATE_EPOCH=$(EPOCH) dpkg-deb --root-owner-group -Z$(COMPRESSION) --build out/deb $@
	@rm -rf out/deb

out/boothd: crates/boothd/out/boothd
	@mkdir -p out
	cp $< $@
# (one file, which is the program that it is run as; rt ci refuses symbolic links)
$(PROGRAM_LINKS:%=out/%): out/boothd
	ln -f $< $@

# rt run proves, builds and then runs a program, here without words, which is a usage error: so the program that it leaves
# tells whether it was proved, and not its status. rt ci leaves the programs too.
crates/boothd/out/boothd: $(SOURCES)
	@$(NEEDS_RT)
	@mkdir -p out
	@echo "proving and building $(notdir $@), half an hour or more at first (out/build.log); make try shows a cluster in three minutes"
	@rm -f $@
	@(cd crates/$(notdir $@) && rt run) 2>&1 </dev/null | tee out/build.log | tools/progress.sh; \
	  test -x $@ || { tail -n 30 out/build.log; exit 1; }
