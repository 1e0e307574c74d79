# rpcbind: `make run` shows a run, `make quick` tests without proof, `make` proves and builds the programs, `make test` is
# the whole test, `make install` puts the programs that `make` built in their places, `make deb` makes a package of Debian
# of them. Needs `rt` (the Rattle toolchain) and bash on the PATH; `make install` needs neither, and `make deb` no `rt`.

PREFIX = /usr/local
DESTDIR =
UNITS = $(PREFIX)/lib/systemd/system
SYSUSERS = $(PREFIX)/lib/sysusers.d
SBINDIR = $(DESTDIR)$(PREFIX)/sbin
MANDIR = $(DESTDIR)$(PREFIX)/share/man/man8
COMPLETIONS = $(DESTDIR)$(PREFIX)/share/bash-completion/completions
DOCDIR = $(DESTDIR)$(PREFIX)/share/doc/rpcbind-proved
# The programs are installed as rpcbind-proved and rpcinfo-proved, beside those of others; `make install NAMES=plain` gives
# them their own names.
NAMES = proved
SUFFIX = $(if $(filter plain,$(NAMES)),,-proved)
PLACED = sed 's|@PREFIX@|$(PREFIX)|g; s|@SUFFIX@|$(SUFFIX)|g'

.PHONY: all help documents run quick test rows hosts peers memory hostile attacks units bench measure deb release install uninstall clean

# Proves each crate, side by side, and builds the programs, crates/rpcbind/out/rpcbind and crates/rpcinfo/out/rpcinfo.
# KEEP=1 keeps each proof for later checks: after a change, `make` and `rt check` then prove what changed.
all:
	@KEEP=$(KEEP) tests/prove.sh

# This list: the targets, by the comments above them.
help:
	@awk '/^# /{said = said "    " substr($$0, 3) "\n"; next} \
		/^[a-z]+:/ && said {sub(/:.*/, ""); printf "make %s\n%s", $$0, said} {said = ""}' Makefile

# The daemon, asked over real sockets of 127.0.0.1, and three calls from bytes to bytes: before any proof.
# PORT=N takes another port.
run:
	@PORT=$(PORT) examples/run.sh

# Each test and each row, in minutes, without any proof: the programs are compiled with checks. Needs 8 GiB of memory for four
# crates at once. The three rows in little memory are left out. The last line is 'N passed, N failed'.
quick:
	@tests/run-all.sh --quick

# The gate: each test, each proof that this machine has not passed before, the edits that must be refused, the rows, and two
# hosts. It says at its start how long it takes. The last line is 'N passed, N failed'.
test:
	@tests/run-all.sh

# The rows alone, over the program that `make` or `make test` built.
rows:
	tests/run-rows.sh

# The built programs on two hosts, the daemon's and a client's, with two networks between them. Needs root.
hosts:
	tests/two-hosts.sh

# Real clients against the built daemon, in a namespace of its own: Debian's rpcinfo, libtirpc, rpc.statd and others as their
# own users, nfs-ganesha with mounts of NFS version 3. Needs root; says what was skipped. RECORD=1 checks a record too.
peers:
	tests/run-peers.sh

# What of the built daemon is resident before and after a load of a million calls, over each kind of listener.
memory:
	tests/run-memory.sh

# Attacks on the built daemon over sockets, each beside a good client, and faults of its system calls, by strace.
# 40 kills of a daemon that keeps its rows are among them. PROGRAM=PATH takes another program. With RECORD=1 each record is
# checked, and no faults are tried.
hostile:
	tests/run-hostile.sh

# As another user against the rows of root's and of rpc.statd's, in a namespace of its own, by each door of the built daemon.
# Needs root; says what was skipped. `tests/attacks.sh PROGRAM CHECK` runs one check.
attacks:
	tests/attacks.sh

# The package in the place of Debian's rpcbind, and back, under a systemd of its own in a Debian that debootstrap makes.
# Needs root. CACHE=FOLDER keeps that Debian there for the next time; BOOTS=N boots it N times (3) with services of inetd.
units:
	@CACHE=$(CACHE) BOOTS=$(BOOTS) tests/systemd.sh

# A package of Debian of the built programs, in this folder. Needs dpkg-deb.
deb:
	@packaging/make-deb.sh

# A release in out/release: each test from a clean checkout, the package, its SHA-256 sums, and what passed. Needs root.
# LEAVE_OUT='STEP ..' leaves steps out, and what is made then says that it is none.
release:
	@LEAVE_OUT="$(LEAVE_OUT)" CACHE="$(CACHE)" packaging/release.sh

# The time of a call, over the built program: TCP in single bytes and in one piece, datagrams over 300 rows, and long lists;
# that of a SET with --keep, beside one without; calls and lists as ratios to the least server in C, with their instructions
# by callgrind; and connections as ratios to Debian's rpcbind. It says what is not there. PARTS='replay keep beside debian'.
bench:
	tests/run-bench.sh $(PARTS)

# The documents that scripts make of the sources, docs/RULES.md, ANSWERS.md and BELIEVED.md, and what is drawn in others.
documents:
	@status=0; for it in tests/make-*.py tests/draw-*.py; do $$it || status=1; done; exit $$status

# docs/TIMINGS.md: where the time goes, by crate, by what `make` from nothing, `make test` or `tests/try-edits.py --anew` said.
# LOGS='FILE ..' names the files that have it.
measure:
	tests/measure-gate.py $(LOGS) > timings.new && mv timings.new docs/TIMINGS.md

# The built programs, their man pages, completion of bash, and the units of systemd, with PREFIX and the programs' names in
# them; the line for systemd-sysusers that makes their user, and beside the documents a file of options and a drop-in.
install:
	install -d $(SBINDIR) $(MANDIR) $(DOCDIR) $(COMPLETIONS) $(DESTDIR)$(UNITS) $(DESTDIR)$(SYSUSERS)
	install -m 644 LICENSE CHANGELOG SECURITY.md docs/MIGRATING.md $(DOCDIR)
	install -m 644 packaging/rpcbind-proved.default packaging/rpcbind-proved.record.conf $(DOCDIR)
	install -m 644 packaging/rpcbind-proved.sysusers $(DESTDIR)$(SYSUSERS)/rpcbind-proved.conf
	install -m 755 crates/rpcbind/out/rpcbind $(SBINDIR)/rpcbind$(SUFFIX)
	install -m 755 crates/rpcinfo/out/rpcinfo $(SBINDIR)/rpcinfo$(SUFFIX)
	install -m 644 man/rpcbind.8 $(MANDIR)/rpcbind$(SUFFIX).8
	install -m 644 man/rpcbind-replay.8 $(MANDIR)/rpcbind$(SUFFIX)-replay.8
	install -m 644 man/rpcinfo.8 $(MANDIR)/rpcinfo$(SUFFIX).8
	$(PLACED) packaging/rpcbind-proved.service > $(DESTDIR)$(UNITS)/rpcbind-proved.service
	$(PLACED) packaging/rpcbind-proved.socket > $(DESTDIR)$(UNITS)/rpcbind-proved.socket
	chmod 644 $(DESTDIR)$(UNITS)/rpcbind-proved.service $(DESTDIR)$(UNITS)/rpcbind-proved.socket
	$(PLACED) packaging/rpcbind-proved.bash-completion > $(COMPLETIONS)/rpcbind$(SUFFIX)
	ln -sf rpcbind$(SUFFIX) $(COMPLETIONS)/rpcinfo$(SUFFIX)

# NAMES as it was at the install.
uninstall:
	rm -f $(SBINDIR)/rpcbind$(SUFFIX) $(SBINDIR)/rpcinfo$(SUFFIX)
	rm -f $(MANDIR)/rpcbind$(SUFFIX).8 $(MANDIR)/rpcbind$(SUFFIX)-replay.8 $(MANDIR)/rpcinfo$(SUFFIX).8
	rm -f $(COMPLETIONS)/rpcbind$(SUFFIX) $(COMPLETIONS)/rpcinfo$(SUFFIX)
	rm -f $(DESTDIR)$(UNITS)/rpcbind-proved.service $(DESTDIR)$(UNITS)/rpcbind-proved.socket
	rm -f $(DESTDIR)$(SYSUSERS)/rpcbind-proved.conf
	rm -rf $(DOCDIR)

clean:
	rm -rf crates/*/out out rpcbind-proved_*.deb
