# The kit's command; everything else is in this repository, or Python 3 itself.
RT ?= rt
export RT

PROGRAM = crates/rad_proxy/out/rad_proxy
AUDITOR = crates/rad_audit/out/rad_audit
CONFIG_JSON = crates/config_json/out/config_json
SIMULATION = crates/rad_simulation/out/rad_simulation
EXAMPLE = examples/one-request-answered.replay
# What runs a script of tests/, before its place: `$(TESTS).rows.run` runs tests/rows/run.py.
TESTS = python3 -m tests

# The crates whose wrong bodies `make edits` tries; none named: all of them.
CRATES ?=

# How many spoiled datagrams `make spoiled` tells the program, how long `make soak` runs it, and by which chance.
DATAGRAMS ?= 100000
SECONDS ?= 60
SEED ?= 1

# How many changes `make mutants` tries.
COUNT ?= 100

# How many seeds `make simulate` runs of the simulation, from which one on.
SEEDS ?= 1000
FIRST ?= 1

.PHONY: help build run serve replay test edits mutants scripts definitions simulate growths spoiled soak cluster bench figures bench-queue \
	bench-spool bench-audit bench-instructions

# What `make` alone does: the line above each target that is called by hand.
help:
	@sed -n 's/^#: /make /p' Makefile

# The mark of a program that was proved and built: made by `make build` and by the gate, and as old as the sources that they saw.
STAMP = out/rad_proxy.stamp
KIT = $(dir $(shell $(RT) doc))

# Whether nothing that programs are made of is newer than that, and whether the program is there and as new.
IS_NEW = test -f $(STAMP) && \
	test -z "$$(find crates/*/src crates/*/specs crates/*/proofs crates.txt $(KIT)bin -newer $(STAMP) -print -quit)"
IS_BUILT = test -x $(PROGRAM) && $(IS_NEW)

# Prints the path of the program: where it is not built, of one with nothing proved, which is made first.
AT_HAND = if $(IS_BUILT); then echo $(PROGRAM); else $(TESTS).gate.unproved; fi

# Where the auditor is built too, it judges the ledger of the conversation.
#: run         the program at work over UDP, with a NAS and a home server; one to two minutes the first time, then ten seconds
run:
	@program=$$($(AT_HAND)) && $(TESTS).gate.first_run run $$program $$(if $(IS_BUILT) && test -x $(AUDITOR); then echo $(AUDITOR); fi)

#: serve       serves examples/try.toml on this machine until Ctrl-D, with a home server that answers
serve:
	@program=$$($(AT_HAND)) && $(TESTS).gate.first_run serve $$program

#: replay      how one request is answered, without sockets
replay:
	@program=$$($(AT_HAND)) && cat $(EXAMPLE) && echo "--- rad_proxy replay < $(EXAMPLE)" && $$program replay < $(EXAMPLE)

# Proves and builds the programs, over what earlier checks kept: runs rad_proxy as stored, the auditor over the example, and the
# reader of configurations over that of the example.
#: build       proves and builds the programs; more than an hour of processor time the first time
build:
	@mkdir -p out && touch out/rad_proxy.begun
	@$(TESTS).gate.progress out/build.txt crates/rad_proxy $(RT) run < crates/rad_proxy/stdin
	@$(TESTS).gate.progress out/build-audit.txt crates/rad_audit $(RT) run -- ../../examples/one-home.toml ../../examples/one-home.jsonl
	@$(TESTS).gate.progress out/build-json.txt crates/config_json $(RT) run -- ../../examples/one-home.toml
	@mv out/rad_proxy.begun $(STAMP)

# The whole gate: all proofs from nothing, the edits of must-fail/, the tests, the stored runs; and then each script that
# tests/gate/scripts.py lists. The last line counts it all.
#: test        the gate: all proofs from nothing, edits that have to be refused, tests; one to two hours on two processors
test:
	@$(TESTS).gate.run $(PROGRAM)

# The wrong bodies that the gate leaves out: the prover has to refuse each one. ALONE=1 tries each by itself.
#: edits       more edits that the prover has to refuse; CRATES="rad_lane" names crates
edits:
	@$(TESTS).gate.edits $(if $(ALONE),--alone) $(CRATES)

# Of the crates, and folders of tools, whose functions mostly have no contract. The first run makes the program that has all changes.
#: mutants     COUNT single changes by SEED where no contract sees them; prints what no script sees in SECONDS; CRATES="rad_log ledger"
mutants: SECONDS = 600
mutants:
	@$(TESTS).gate.mutants $(COUNT) $(SEED) $(SECONDS) $(CRATES)

#: scripts     lists the scripts of tests/, with what each does
scripts:
	@$(TESTS).gate.pages

#: definitions lists the files of definitions that public contracts cite, with what each defines
definitions:
	@$(TESTS).gate.docs --definitions

# The simulation of the whole proxy, run with so many seeds. Where the gate did not leave it, it is proved and built first.
#: simulate    the simulation of the whole proxy, by SEEDS seeds from FIRST on
simulate:
	@mkdir -p out
	@if ! { test -x $(SIMULATION) && $(IS_NEW); }; then \
		$(TESTS).gate.progress out/simulation.txt crates/rad_simulation $(RT) run -- $(FIRST) 1; \
	fi
	@$(TESTS).models.simulations $(SIMULATION) $(SEEDS) $(FIRST)

# Each growth refused in turn, in the program that was built and in the tests that were; the gate does it in the program.
#: growths     each growth of memory refused in turn
growths:
	@$(TESTS).faults.refused_memory $(PROGRAM) $(wildcard crates/*/out/*_tests)

# Spoiled datagrams by chance, over the program that was built; the gate has a shorter run of a fixed chance.
#: spoiled     DATAGRAMS corrupted datagrams to the program
spoiled:
	@$(TESTS).models.spoiled_datagrams $(PROGRAM) $(DATAGRAMS) $(SEED)

# The program over UDP and a network that loses, for SECONDS, and then, for as long, whether its memory grows under a load
# that does not; the gate has short runs of a fixed count of requests. Then fifty runs that are killed at random moments, two hundred over a
# spool and twenty that end in order over it, and a disk that takes ten seconds for each write, whose ledgers are compared with what was
# acknowledged.
#: soak        the program over a network that loses, for SECONDS seconds; kills; a slow disk
soak:
	@status=0; \
	$(TESTS).network.lossy_network $(PROGRAM) --seconds $(SECONDS) $(SEED) || status=1; \
	$(TESTS).faults.memory_leaks $(PROGRAM) --seconds $(SECONDS) || status=1; \
	$(TESTS).network.lossy_network $(PROGRAM) --kills 50 $(SEED) || status=1; \
	$(TESTS).faults.killed_runs $(PROGRAM) --kills 200 --ends 20 --seed $(SEED) || status=1; \
	$(TESTS).ledger.folders_and_writes $(PROGRAM) --long || status=1; \
	exit $$status

# Tries the recipes of examples/cluster/ and examples/failover/ and the container of examples/container/ with machines in namespaces, as
# root: short tests, and then all events in turn, of which each recipe prints what they cost. It takes some fourteen minutes.
#: cluster     tries the recipes of examples/cluster/ and examples/failover/ with machines in namespaces, as root
cluster:
	@status=0; \
	for recipe in keepalived nft ecmp failover container; do \
		$(TESTS).cluster.$$recipe $(PROGRAM) || status=1; \
		$(TESTS).cluster.$$recipe $(PROGRAM) --long || status=1; \
	done; \
	exit $$status

# Measures the program that was built, a bare relay, and radsecproxy and FreeRADIUS where they are installed; docs/performance.md
# says how.
#: bench       measures the program beside radsecproxy and FreeRADIUS, where they are installed
bench: ROUNDS = 5
bench: SECONDS = 3
bench: RATE = 20000
bench: OCTETS = 60
bench: PORT = 23000
bench:
	@test -x $(PROGRAM) || { echo "there is no $(PROGRAM): run make build first" >&2; exit 1; }
	@python3 -m bench.run $(PROGRAM) --rounds $(ROUNDS) --seconds $(SECONDS) --rate $(RATE) --octets $(OCTETS) --port $(PORT) \
		$(if $(LONG),--long $(LONG)) $(if $(ONLY),--only "$(ONLY)") $(if $(SUBJECTS),--subjects "$(SUBJECTS)")

# Puts the figures of the last `make bench` into docs/performance.md.
#: figures     puts the figures of the last `make bench` into docs/performance.md
figures:
	@python3 -m bench.page out/bench
	@$(TESTS).gate.docs --write

# What a push and a pop of the chain of blocks cost beside those of std's `VecDeque`, and what memory a long queue takes.
#: bench-queue measures the queue of blocks beside std's `VecDeque`
bench-queue:
	@python3 bench/queue/run.py

# Records a second into a spool beside those of a plain C program, and what reading a million open ones takes, by the tests of the crate
# that were built. FOLDER says on which file system.
#: bench-spool measures the files of a spool beside a plain C program
bench-spool:
	@python3 -m bench.spool crates/library_tests/out/library_tests_tests $(FOLDER)

#: bench-audit measures the auditor beside sha256sum and jq
bench-audit:
	@python3 -m bench.audit $(AUDITOR)

#: bench-instructions counts the instructions of front and lanes for each request, by valgrind; BOOKS="1000" says how many the books have
bench-instructions:
	@python3 -m bench.instructions $(PROGRAM) $(BOOKS)

# Where `make install` puts things. DESTDIR stands before each of them.
VERSION := $(shell sed -n 's/^VERSION = "\(.*\)"$$/\1/p' tools/version.py)
PREFIX ?= /usr/local
BINDIR ?= $(PREFIX)/bin
SBINDIR ?= $(PREFIX)/sbin
LIBEXECDIR ?= $(PREFIX)/libexec
MANDIR ?= $(PREFIX)/share/man
DOCDIR ?= $(PREFIX)/share/doc/rad_proxy
TOOLSDIR ?= $(PREFIX)/share/rad_proxy
UNITDIR ?= $(PREFIX)/lib/systemd/system
SYSUSERSDIR ?= $(PREFIX)/lib/sysusers.d
COMPLETIONSDIR ?= $(PREFIX)/share/bash-completion/completions
SCHEMADIR ?= $(PREFIX)/share/rad_proxy
SYSCONFDIR ?= /etc
RUNDIR ?= /run
STATEDIR ?= /var/lib
DESTDIR ?=

# What is made of the sources of packaging/: the folders, and for the unit the configuration's name.
FOLDERS = -e 's,@bindir@,$(BINDIR),g' -e 's,@sbindir@,$(SBINDIR),g' -e 's,@libexecdir@,$(LIBEXECDIR),g' -e 's,@sysconfdir@,$(SYSCONFDIR),g' \
	-e 's,@rundir@,$(RUNDIR),g' -e 's,@statedir@,$(STATEDIR),g' -e 's,@version@,$(VERSION),g'
ONE = -e 's,@of@,,' -e 's,@config@,rad_proxy,g' -e 's,@runtime@,rad_proxy,'
HEADS = rad_proxy-heads.service rad_proxy-heads.timer rad_proxy-heads.path
UNITS = rad_proxy.service rad_proxy@.service rad_proxy-metrics.socket rad_proxy-metrics.service $(HEADS)
MANY = -e 's,@of@, %i,' -e 's,@config@,%i,g' -e 's,@runtime@,rad_proxy-%i,'

# The tools, which are Python programs with modules beside them; and the modules of rad_proxyctl, which root runs: they are installed
# beside `serve`, and nothing else is there.
TOOLS = rad_convert rad_ledger rad_resend rad_trial
CONTROL = version.py configuration.py resending.py $(patsubst %,trial/%.py,__init__ faults radius settings) $(patsubst tools/%,%,$(wildcard tools/controlling/*.py))

.PHONY: install install-proxy install-tools uninstall manual deb service

#: install     installs what `make build` left, below PREFIX; `make uninstall` removes it
install: install-proxy install-tools

# Installs the programs that `make build` left, the scripts of the service, the units, the manual, the pages and the
# examples. The configuration is the operator's: $(SYSCONFDIR)/rad_proxy is made, and nothing is put there.
install-proxy:
	@for program in $(PROGRAM) $(AUDITOR) $(CONFIG_JSON); do \
		test -x $$program || { echo "there is no $$program: run make build first" >&2; exit 1; }; \
	done
	install -d $(DESTDIR)$(BINDIR) $(DESTDIR)$(SBINDIR) $(DESTDIR)$(LIBEXECDIR)/rad_proxy $(DESTDIR)$(UNITDIR) $(DESTDIR)$(SYSUSERSDIR)
	install -d $(DESTDIR)$(MANDIR)/man8 $(DESTDIR)$(MANDIR)/man5 $(DESTDIR)$(MANDIR)/man1 $(DESTDIR)$(DOCDIR)/docs $(DESTDIR)$(SYSCONFDIR)/rad_proxy
	install -m 755 $(PROGRAM) $(DESTDIR)$(SBINDIR)/rad_proxy
	install -m 755 $(AUDITOR) $(DESTDIR)$(BINDIR)/rad_audit
	install -m 755 $(CONFIG_JSON) $(DESTDIR)$(LIBEXECDIR)/rad_proxy/config_json
	sed $(FOLDERS) packaging/serve.in > $(DESTDIR)$(LIBEXECDIR)/rad_proxy/serve
	chmod 755 $(DESTDIR)$(LIBEXECDIR)/rad_proxy/serve
	install -d $(DESTDIR)$(LIBEXECDIR)/rad_proxy/controlling $(DESTDIR)$(LIBEXECDIR)/rad_proxy/trial
	for file in $(CONTROL); do install -m 644 tools/$$file $(DESTDIR)$(LIBEXECDIR)/rad_proxy/$$file || exit 1; done
	sed $(FOLDERS) packaging/places.py.in > $(DESTDIR)$(LIBEXECDIR)/rad_proxy/controlling/places.py
	chmod 644 $(DESTDIR)$(LIBEXECDIR)/rad_proxy/controlling/places.py
	install -m 755 tools/rad_proxyctl $(DESTDIR)$(LIBEXECDIR)/rad_proxy
	ln -sfr $(DESTDIR)$(LIBEXECDIR)/rad_proxy/rad_proxyctl $(DESTDIR)$(SBINDIR)/rad_proxyctl
	install -d $(DESTDIR)$(COMPLETIONSDIR)
	sed $(FOLDERS) packaging/completion.bash.in > $(DESTDIR)$(COMPLETIONSDIR)/rad_proxyctl
	chmod 644 $(DESTDIR)$(COMPLETIONSDIR)/rad_proxyctl
	ln -sf rad_proxyctl $(DESTDIR)$(COMPLETIONSDIR)/rad_proxy
	install -D -m 644 packaging/rad_proxy.schema.json $(DESTDIR)$(SCHEMADIR)/rad_proxy.schema.json
	sed $(FOLDERS) $(ONE) packaging/rad_proxy.service.in > $(DESTDIR)$(UNITDIR)/rad_proxy.service
	sed $(FOLDERS) $(MANY) packaging/rad_proxy.service.in > $(DESTDIR)$(UNITDIR)/rad_proxy@.service
	sed $(FOLDERS) packaging/rad_proxy-metrics.socket.in > $(DESTDIR)$(UNITDIR)/rad_proxy-metrics.socket
	sed $(FOLDERS) packaging/rad_proxy-metrics.service.in > $(DESTDIR)$(UNITDIR)/rad_proxy-metrics.service
	for unit in $(HEADS); do sed $(FOLDERS) packaging/$$unit.in > $(DESTDIR)$(UNITDIR)/$$unit || exit 1; done
	cd $(DESTDIR)$(UNITDIR) && chmod 644 $(UNITS)
	install -m 644 packaging/sysusers.conf $(DESTDIR)$(SYSUSERSDIR)/rad_proxy.conf
	install -m 644 man/man8/rad_proxy.8 man/man8/rad_proxyctl.8 $(DESTDIR)$(MANDIR)/man8
	install -m 644 man/man5/rad_proxy.toml.5 $(DESTDIR)$(MANDIR)/man5
	install -m 644 man/man1/rad_audit.1 $(DESTDIR)$(MANDIR)/man1
	install -m 644 README.md SECURITY.md CHANGELOG.md LICENSE $(DESTDIR)$(DOCDIR)
	cp -R docs examples $(DESTDIR)$(DOCDIR)
	chmod -R u=rwX,go=rX $(DESTDIR)$(DOCDIR)

# Installs the tools, their modules, and their manual.
install-tools:
	install -d $(DESTDIR)$(BINDIR) $(DESTDIR)$(TOOLSDIR) $(DESTDIR)$(MANDIR)/man1
	for file in $(filter-out tools/controlling/%,$(wildcard tools/*.py tools/*/*.py)); do install -D -m 644 $$file $(DESTDIR)$(TOOLSDIR)/$${file#tools/} || exit 1; done
	cd tools && install -m 755 $(TOOLS) $(abspath $(DESTDIR)$(TOOLSDIR))
	cd man/man1 && install -m 644 $(TOOLS:=.1) $(abspath $(DESTDIR)$(MANDIR)/man1)
	for tool in $(TOOLS); do ln -sfr $(DESTDIR)$(TOOLSDIR)/$$tool $(DESTDIR)$(BINDIR)/$$tool || exit 1; done

# Takes away what `make install` put, and leaves the configuration.
uninstall:
	rm -f $(DESTDIR)$(SBINDIR)/rad_proxy $(DESTDIR)$(SBINDIR)/rad_proxyctl $(DESTDIR)$(BINDIR)/rad_audit
	test ! -d $(DESTDIR)$(UNITDIR) || (cd $(DESTDIR)$(UNITDIR) && rm -f $(UNITS))
	rm -f $(DESTDIR)$(COMPLETIONSDIR)/rad_proxyctl $(DESTDIR)$(COMPLETIONSDIR)/rad_proxy $(DESTDIR)$(SCHEMADIR)/rad_proxy.schema.json
	rm -f $(DESTDIR)$(SYSUSERSDIR)/rad_proxy.conf $(DESTDIR)$(MANDIR)/man8/rad_proxy.8
	rm -f $(DESTDIR)$(MANDIR)/man8/rad_proxyctl.8 $(DESTDIR)$(MANDIR)/man5/rad_proxy.toml.5 $(DESTDIR)$(MANDIR)/man1/rad_audit.1
	rm -f $(TOOLS:%=$(DESTDIR)$(BINDIR)/%) $(TOOLS:%=$(DESTDIR)$(MANDIR)/man1/%.1)
	rm -rf $(DESTDIR)$(LIBEXECDIR)/rad_proxy $(DESTDIR)$(TOOLSDIR) $(DESTDIR)$(DOCDIR)

# Looks at the manual and at the scripts of the shell: mandoc and shellcheck have to find nothing.
#: manual      lints the manual and the scripts of the shell
manual:
	mandoc -T lint -W warning man/man8/rad_proxy.8 man/man8/rad_proxyctl.8 man/man5/rad_proxy.toml.5 man/man1/rad_audit.1 \
		$(TOOLS:%=man/man1/%.1)
	shellcheck packaging/serve.in packaging/completion.bash.in packaging/deb packaging/deb-tools packaging/debian/postinst \
		packaging/debian/prerm packaging/debian/postrm tests/packaging/*

# A Debian package of the programs that `make build` left, and one of the tools, in out/.
#: deb         makes Debian packages of it in out/
deb:
	@VERSION=$(VERSION) packaging/deb
	@VERSION=$(VERSION) packaging/deb-tools

# Tries the installed scripts and the program over UDP on this machine's own address: as they are used, and as they are misused.
#: service     tests the scripts of the service over the program
service:
	@tests/packaging/try-service
	@$(TESTS).service.serve_and_rad_proxyctl $(PROGRAM)
	@$(TESTS).service.rad_proxyctl_metrics $(PROGRAM)
