ENDPOINT = {\"url\":\"http://127.0.0.1:9000/hook\",\"max\":100,\"secrets\":[\"whsec_MDEyMzQ1Njc4OTAxMjM0NTY3ODkwMTIz\"]}

RELAYD = crates/relayd/out/relayd
BENCH = crates/bench/out/bench
DRIVER = crates/driver/out/driver
AT_ONCE = $(shell scripts/gate jobs)
SOURCES = $(shell find crates -path '*/out' -prune -o -path 'crates/tests_*' -prune -o \( -name '*.rt' -o -name '*.antt' \) -print) crates.txt HANDLES

# Lists what can be made.
help:
	@awk '/^# /{said=said substr($$0, 2)} /^[a-z]+:/{sub(/:.*/, ""); printf "make %-8s%s\n", $$0, said} !/^# /{said=""}' Makefile

# Proves the relay and builds it (70 minutes on four processors if out/ is empty), and serves relay.db at 127.0.0.1:8080.
run: $(RELAYD)
	@echo 'Put an endpoint, and submit an event to it:'
	@echo "  curl -X PUT http://127.0.0.1:8080/v1/endpoints/shop -d '$(ENDPOINT)'"
	@echo "  curl http://127.0.0.1:8080/v1/endpoints/shop/events -H 'webhook-id: order-1' -d '{\"order\":1}'"
	$(RELAYD) serve relay.db 127.0.0.1:8080

# Builds the same, and shows step by step what a relay does: events, signatures, a retry, a kill, an answer 410, a purge. It ends by itself.
demo: $(RELAYD)
	scripts/serve demo $(RELAYD)

# Shows one event on its way through the relay's core: a failure, a crash, the delivery. It takes three to four minutes and proves nothing.
try:
	@echo 'rt try compiles relayd from its sources and runs it, in three to four minutes. It proves nothing: make run does.'
	@scripts/script show

# Runs the tests: the merge gate, then the scripts beside it.
test:
	scripts/gate test

# Proves every crate that changed and those above it, over what earlier checks kept in out/.
check:
	rt all check

# Tries the mutants that the gate tries of one crate, one by one: make edits CRATE=vegas
edits:
	rt must-fail $(or $(CRATE),$(error say which crate: make edits CRATE=vegas))

# Tries all mutants of each crate, those in different functions at once, or of one: make attack CRATE=vegas
attack:
	scripts/gate mutants $(CRATE)

# Lays out the files of every crate.
fmt:
	for crate in crates/*/; do (cd "$$crate" && rt fmt) || exit 1; done

# Prints one table of measurements, each beside a figure to compare it with.
bench: $(BENCH) $(DRIVER) $(RELAYD)
	scripts/bench core $(BENCH) $(DRIVER) $(RELAYD)
	scripts/bench publish $(RELAYD)

# Installs the same below PREFIX: the program, its manual page, its unit and the documents.
install: $(RELAYD)
	packaging/install $(RELAYD) $(or $(PREFIX),/usr/local)

# Makes a Debian package of the same.
deb: $(RELAYD)
	packaging/make-deb $(RELAYD) relayd.deb

# Measures `relayd serve` beside nginx, relays in Go and Python, and PostgreSQL. It needs wrk and nginx, and leaves out Go or PostgreSQL if it lacks them.
# With an older relayd in the same run: make load BEFORE=PROGRAM
load: $(RELAYD)
	scripts/bench http $(RELAYD) $(if $(BEFORE),--before $(BEFORE))

# A program is proved and built if one of its sources is newer. `make test` builds both, too. `rt run` alone proves the crates below it
# one after another; `rt all`, in the program's folder, proves these and the program side by side, and `rt run` takes what it leaves.
$(RELAYD): $(SOURCES)
	@echo 'Proving all crates of relayd, and then building it: 70 minutes on four processors if out/ is empty, else what changed.'
	cd crates/relayd && rt all check --jobs $(AT_ONCE) && rt run -- --version
	touch $@

$(BENCH) $(DRIVER): $(SOURCES)
	cd $(@D)/.. && rt all check --jobs $(AT_ONCE) && rt run
	touch $@

.PHONY: help run demo try test check edits attack fmt bench install deb load
