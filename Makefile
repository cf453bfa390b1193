.PHONY: build run serve install test check model edits extra refusals compare clients hostile

PROGRAM = crates/xs_server/out/xs_server
BUILD = python3 scripts/build.py out/build.log

# Proves and builds the program.
build:
	@$(BUILD)

# Proves and builds the program, and runs the script of two additions.
run: build
	@$(PROGRAM) script < crates/xs_server/stdin

# Proves and builds the program, and serves on port 6379 of 127.0.0.1 until it is stopped.
serve: build
	@$(PROGRAM) run

# Proves and builds the program, and puts it and its units for systemd below PREFIX (and DESTDIR, if that is given).
PREFIX = /usr/local
UNITS = xs_server.service xs_server-compact.service
install: build
	install -D -m 755 $(PROGRAM) $(DESTDIR)$(PREFIX)/bin/xs_server
	install -D -m 644 -t $(DESTDIR)$(PREFIX)/lib/systemd/system $(addprefix service/,$(UNITS))
	sed -i 's,/usr/local,$(PREFIX),' $(addprefix $(DESTDIR)$(PREFIX)/lib/systemd/system/,$(UNITS))

# CI. Checks that guards/README.md names the edits that exist, and that each slip of guards/slips.txt still applies. Proves
# everything from scratch, tries the edits of must-fail/, and runs the unit tests. Then it runs the program that was
# built: the worked cases, large scripts, random connections, and the server as its users run it, with requests sent
# many at once, and with a log, ended in every way. Last, Spin explores the models of how threads wait for each other.
test:
	python3 scripts/edits_table.py --check
	for crate in xs_stream xs_resp xs_group xs_command xs_keys xs_session; do python3 guards/slips.py --by-hand --list $$crate > /dev/null || exit 1; done
	rt ci
	python3 tests/cases/run.py $(PROGRAM) script
	python3 tests/cases/great.py $(PROGRAM)
	python3 tests/served/sessions.py --bytes 5000000 $(PROGRAM)
	python3 tests/served/serves.py $(PROGRAM)
	python3 tests/served/running.py $(PROGRAM)
	python3 tests/served/pipelines.py $(PROGRAM)
	python3 tests/served/durable.py $(PROGRAM)
	python3 model/run.py

# Proves what has changed, and runs the worked cases and a server: what one runs while working.
check:
	rt all check
	$(BUILD)
	python3 tests/cases/run.py $(PROGRAM) script
	python3 tests/served/serves.py $(PROGRAM)
	python3 tests/served/running.py $(PROGRAM)
	python3 tests/served/durable.py $(PROGRAM)

# Has Spin explore how the lanes of a desk and their keeper wait for each other, and some wrong protocols. Debian: apt-get
# install spin gcc
model:
	python3 model/run.py

# Tries the further wrong bodies of guards/edits/, which CI leaves out: the prover has to refuse each.
edits:
	python3 guards/edits/run.py

# Proves the crates of extra.txt, and runs the tests of those that are refused memory, each with ample memory.
extra:
	rt all check
	python3 scripts/extra.py check
	python3 scripts/extra.py test xs_stream_refusals xs_maps_refusals xs_resp_refusals xs_group_refusals xs_keys_refusals

# Runs the tests that say so, and the worked cases, with each allocation refused in turn. Debian: apt-get
# install gcc
refusals:
	rt all check
	python3 guards/refusals.py
	$(BUILD)
	python3 guards/refused_scripts.py $(PROGRAM) script

# Asks a real Redis 7.0 the worked cases too, but for those that are only ours, and then asks it and the program the same
# 100,000 commands of streams and groups, made at random, as a script and over 8 connections at once. Debian: apt-get
# install redis-server gcc
compare:
	python3 tests/redis/compare.py
	$(BUILD)
	python3 tests/redis/at_random.py $(PROGRAM) script
	python3 tests/redis/at_random_served.py $(PROGRAM)

# Runs the program as a server for clients of others, beside a real Redis 7.0, and for the examples. Clients that aren't
# installed are skipped.
# Debian: apt-get install redis-server redis-tools python3-redis python3-hiredis gcc libhiredis-dev node-redis ruby-redis
# golang-go golang-github-gomodule-redigo-dev php-cli php-redis php-predis php-symfony-redis-messenger
# prometheus-redis-exporter
clients:
	$(BUILD)
	python3 tests/redis/clients.py $(PROGRAM)
	python3 tests/redis/examples.py $(PROGRAM)

# Runs the program as a server for clients that are hostile, unlucky or many, and kills it 200 times under load, and as
# often beside compactions.
hostile:
	$(BUILD)
	python3 tests/served/hostile.py $(PROGRAM)
	python3 tests/served/durable.py --only killed_under_load,killed_beside_compactions --kills 200 $(PROGRAM)
