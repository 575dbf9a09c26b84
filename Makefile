# The auction house. `make` lists what can be made.

# Conformance cases that lie beside the checkout, and the suites of today, each with those of its cases that are played.
CASES ?= ../shared/conformance
SUITES = editions:* surplus-with-reserves:*
DESCRIBED = editions surplus-with-reserves

# How many messages the fuzz sends at least, how many answers spoiled ones have to get, how many pairs of lists are audited
# that are apart, and how many that differ in what is sealed alone, how often a server is killed, how many rows a lot file has, and
# the seed that chooses them; that each EVERYth call on files stops, or has a power cut after it, and each EVERYth value is
# spoiled; the crates whose wrong bodies make wrong and make reasons try, and in which make mutants and make plant put some, all
# where there are none; how many mutants are drawn; and the bodies that make giving puts in, nine where there are none.
MESSAGES ?= 5000
MUTATED ?= 100000
KILLS ?= 200
EVERY ?= 1
ROWS ?= 20000
PAIRS ?= 1000
SEALED ?= 10000
SEED ?= 2026
CRATES ?=
COUNT ?= 100
BODIES ?=

# How many seconds fifty clients ask through the gateway, how often the house is started anew under them, and how many copies
# are made of a house that is served; the Debian in which the package is tried; a folder for pictures of the page, or none;
# how many pages are open at once.
PERIOD ?= 60
RESTARTS ?= 20
COPIES ?= 60
DEBIAN ?= out/debian
PICTURES ?=
PAGES ?= 1000

# What shellcheck reads.
SCRIPTS = .ci/run deploy/service/alarm $(addprefix deploy/package/,completion.bash postinst postrm prerm) \
	$(wildcard bench/*.sh deploy/*/*.sh deploy/*/*/*.sh tests/*/*.sh tests/*/*/*.sh)

# Debian's packages of these five: nginx to util-linux are needed, the others are left out where they aren't there. The page
# needs chromium-driver too, and its modules and types are tested where nodejs and node-typescript are there.
GATEWAY_PACKAGES = nginx-light haproxy apache2-bin apache2-utils sqlite3 openssl curl iproute2 procps python3 util-linux nftables \
	chromium-driver
PAGE_PACKAGES = $(GATEWAY_PACKAGES) nodejs node-typescript
LOAD_PACKAGES = $(GATEWAY_PACKAGES) wrk
BACKUP_PACKAGES = sqlite3 btrfs-progs
REPLICA_PACKAGES = glusterfs-server iproute2 procps keepalived haproxy
DISK_PACKAGES = python3-fusepy nbdkit libnbd-bin fuse2fs e2fsprogs haproxy curl util-linux
SERVICE_PACKAGES = prometheus haproxy
DEB_PACKAGES = lintian debootstrap systemd-container

.PHONY: help demo session test auction program cases rows fuzz mutated twins memory allocations statement random file \
	columns office kills stops cuts stalls counts wrong reasons mutants plant giving axioms documents openapi gateway load page backup \
	service replica disks deb packages

help:
	@echo "For a newcomer"
	@echo "  make demo      answers examples/bids.http, without waiting for the proofs, in three to four minutes"
	@echo "  make auction   proves and builds the program, as bin/auction, and says how far it is"
	@echo "  make session   plays the README's sessions on bin/auction: a house in a file with curl"
	@echo
	@echo "The gate"
	@echo "  make test      proves everything, runs the crates' tests and the wrong bodies in must-fail/ (rt ci), and says how far"
	@echo "                 it is and when it should end; out/ has all lines, and the minutes by crate and step; first it has"
	@echo "                 shellcheck read the shell scripts, where that is there"
	@echo "  make wrong     tries the wrong bodies that make test leaves out, of the crates CRATES=\"a b\" or of all"
	@echo "  make reasons   says for what reason each wrong body of the crates CRATES=\"a b\" or of all is refused: at a clause, at a"
	@echo "                 panic, or for none that counts; it begins where the last run stopped, and takes hours for all"
	@echo "  make mutants   puts in COUNT small wrong edits that SEED draws, in the crates CRATES=\"a b\" or in all, and says what refuses"
	@echo "                 each; shows those that are proved"
	@echo "  make plant     has the kit plant wrong bodies in the crates CRATES=\"a b\" or in all (rt plant), and makes a page of it"
	@echo "  make giving    puts in bodies that give up, those named in BODIES=\"a b\", and looks whether the tests find them"
	@echo "  make axioms    lists what the proof of the program assumes, as the prover tells it: each function of C, and the libraries"
	@echo "                 that it takes as the kit has them built; some minutes after make auction"
	@echo "  make documents reads the documents, and plays what they show on the program"
	@echo "  make openapi   holds the answers of the cases in CASES against docs/openapi.yaml (needs Python's jsonschema and"
	@echo "                 openapi-spec-validator, and no kit)"
	@echo
	@echo "Tests of the program that make test or make auction has left"
	@echo "  make program   on words, tables, streams, files and clients (needs cc)"
	@echo "  make cases     on the conformance cases in CASES, which are played on the plain site too"
	@echo "  make fuzz      on MESSAGES random messages, some over TCP, beside plain lists and in twin runs"
	@echo "  make mutated   on streams of spoiled messages, until MUTATED are answered, and what was accepted plainly"
	@echo "  make twins     audits SEALED random pairs of lists that differ in what others sealed, and PAIRS that are apart,"
	@echo "                 raises a bid in PAIRS random lists, and plays PAIRS on houses that are killed and started again"
	@echo "  make file      makes houses in files, opens, copies, damages and upgrades them, kills who serves, reads them with"
	@echo "                 sqlite3, and has that write them anew"
	@echo "  make columns   spoils each column of each table, by each value or each EVERYth, and asks everything of each such house"
	@echo "  make office    imports lot files, one of ROWS rows, and reads statements"
	@echo "  make kills     kills who serves a house KILLS times at random moments, and who upgrades one, and looks what is in its"
	@echo "                 file"
	@echo "  make stops     stops the program at each call on its files, or each EVERYth, and opens what is left (needs cc)"
	@echo "  make cuts      cuts the power after each such call, as a model, and opens all that may be left (needs cc)"
	@echo "  make counts    counts the statements that a bid and pages make of a house in a file (needs valgrind)"
	@echo "  make stalls    has clients that send or read nothing hold up one that asks, for up to two minutes"
	@echo
	@echo "What is around the program, from deploy/"
	@echo "  make packages  installs Debian's packages that these need, as root"
	@echo "  make gateway   has clients ask and bid through nginx and haproxy for PERIOD, and the house start anew RESTARTS times"
	@echo "  make load      has PAGES pages of an item open in its last minute, through the gateway, while a member bids (needs wrk)"
	@echo "  make page      plays an auction on the page of the gateway in Chromium, by the house and three members, in eight minutes"
	@echo "  make backup    makes COPIES copies of a house that is served, and restores one"
	@echo "  make service   gives the alert rules of the service what they have to tell of, has its watch look at houses that are"
	@echo "                 away, and asks a house through its queue"
	@echo "  make replica   serves a house on a volume that three machines keep, kills them and cuts one off, as root, in two minutes;"
	@echo "                 and has keepalived give the name of a city to another machine"
	@echo "  make disks     has the disk of a house fail under bids, as root: one that is full, has I/O errors, or is cut off"
	@echo "  make deb       makes the package in out/, and tries it in a plain Debian in the folder DEBIAN"
	@echo
	@echo "Tests of the crates that make test has left"
	@echo "  make rows      plays the cases and random lists message by message and as runs, in memory and in databases"
	@echo "  make random    compares houses with plain lists, on random commands and on long lists, and with one another"
	@echo "  make statement compares statements with those that Python makes"
	@echo "  make memory    refuses each allocation of the program and of the crates below it, over SQLite one in so many (needs cc)"
	@echo "  make allocations  refuses each over SQLite (needs cc)"

# What a target needs, named where it is missing.
.PHONY: has-kit has-program has-bin has-cases has-cc has-curl has-tests

has-kit:
	@command -v rt > /dev/null || { echo "no rt: README.md says what the kit is"; exit 1; }

has-program:
	@test -x crates/auction/out/auction || { echo "no crates/auction/out/auction: run make auction first"; exit 1; }

has-bin:
	@test -x bin/auction || { echo "no bin/auction: run make auction first"; exit 1; }

has-cases:
	@test -d "$(CASES)" || { echo "no folder $(CASES): name that of the conformance cases by CASES=.."; exit 1; }

has-cc:
	@command -v cc > /dev/null || { echo "no cc: install a C compiler"; exit 1; }

has-curl:
	@command -v curl > /dev/null || { echo "no curl: install it"; exit 1; }

has-tests:
	@test -x crates/test_store/out/test_store || { echo "no crates/test_store/out: run make test first"; exit 1; }

demo test auction wrong reasons mutants plant giving axioms: has-kit
session: has-bin has-curl
program cases fuzz mutated twins memory allocations file columns office kills stops cuts stalls counts documents: has-program
gateway load page backup service replica disks deb: has-program
rows random file statement memory allocations: has-tests
cases openapi: has-cases
memory allocations stops cuts: has-cc
documents: has-curl

demo:
	@echo "This builds the program without proofs, so a line says proved=no. It takes three to four minutes."
	@bash -o pipefail -c "cd crates/auction && rt try -- replay --preset < ../../examples/bids.http \
		| sed 's/}HTTP/}\n\nHTTP/; \$$ s/\$$/\n/'"

test:
	if command -v shellcheck > /dev/null; then shellcheck -x -P SCRIPTDIR $(SCRIPTS); fi
	python3 tests/kit/judges.py
	python3 tests/kit/giving_up.py --texts
	python3 tests/kit/run.py rt ci

auction:
	python3 tests/kit/build_program.py auction

session:
	python3 tests/documents/readme.py bin/auction

program:
	python3 tests/program/program.py crates/auction/out/auction
	python3 tests/program/streams.py crates/auction/out/auction
	python3 tests/program/served.py crates/auction/out/auction
	python3 tests/program/at_once.py crates/auction/out/auction
	python3 tests/program/served_pages.py crates/auction/out/auction
	python3 tests/office/office.py crates/auction/out/auction
	python3 tests/office/living_house.py crates/auction/out/auction
	if command -v curl > /dev/null; then \
		python3 tests/program/real_clients.py crates/auction/out/auction && \
		python3 tests/documents/readme.py crates/auction/out/auction; \
	fi

cases:
	set -f; python3 tests/program/plain_cases.py $(addprefix $(CASES)/,$(SUITES))
	set -f; for suite in $(SUITES); do \
		python3 $(CASES)/compare.py --program crates/auction/out/auction --only "$${suite#*:}" $(CASES)/$${suite%%:*} || exit 1; \
	done

rows:
	python3 tests/program/rows.py crates/test_store/out/test_store $(CASES)/editions

fuzz:
	python3 tests/program/fuzz.py crates/auction/out/auction $(MESSAGES) $(SEED)
	python3 tests/program/auction_mark.py crates/auction/out/auction
	python3 tests/program/plain_pages.py

mutated:
	python3 tests/program/mutated.py crates/auction/out/auction $(MUTATED) $(SEED)

twins:
	python3 tests/program/twins.py crates/auction/out/auction $(SEALED) $(PAIRS) $(SEED)
	python3 tests/program/raised.py crates/auction/out/auction $(PAIRS) $(SEED)
	python3 tests/program/twin_lives.py crates/auction/out/auction $(PAIRS) $(SEED)

memory:
	python3 tests/memory/refused_memory.py crates/auction/out/auction
	python3 tests/memory/refused_routes.py crates/auction/out/auction 1 40 10
	python3 tests/memory/refused_office.py crates/auction/out/auction 400 100 100 40
	python3 tests/memory/refused_statement.py crates/bench_settle/out/bench_settle
	python3 tests/memory/refused_asks.py crates/test_messages/out/test_messages
	python3 tests/memory/refused_inbox.py crates/bench_wire/out/bench_wire
	python3 tests/memory/refused_house.py crates/test_store/out/test_store 1 memory
	python3 tests/memory/refused_house.py crates/test_store/out/test_store 4 sqlite
	python3 tests/memory/refused_pages.py crates/test_site/out/test_site
	python3 tests/memory/refused_store.py crates/test_store/out/test_store 4 1
	python3 tests/memory/refused_rows.py crates/test_store/out/test_store 1
	python3 tests/memory/refused_device.py crates/test_values/out/test_values
	python3 tests/memory/refused_bands.py crates/test_values/out/test_values

allocations:
	python3 tests/memory/refused_rows.py crates/test_store/out/test_store 1
	python3 tests/memory/refused_store.py crates/test_store/out/test_store 1 1
	python3 tests/memory/refused_house.py crates/test_store/out/test_store 1 sqlite
	python3 tests/memory/refused_routes.py crates/auction/out/auction 1 1 1
	python3 tests/memory/refused_office.py crates/auction/out/auction 1 1 1 1

statement:
	python3 tests/office/compared_statements.py crates/bench_settle/out/bench_settle

random:
	python3 tests/program/random_house.py crates/test_store/out/test_store memory
	python3 tests/program/long_lists.py crates/test_store/out/test_store memory
	python3 tests/program/random_house.py crates/test_store/out/test_store sqlite
	python3 tests/program/long_lists.py crates/test_store/out/test_store sqlite
	python3 tests/program/stored_house.py crates/test_store/out/test_store

file:
	python3 tests/files/store_file.py crates/test_store/out/test_store
	python3 tests/files/house_file.py crates/auction/out/auction
	python3 tests/files/spoiled_house.py crates/auction/out/auction
	python3 tests/files/bad_files.py crates/auction/out/auction
	python3 tests/files/upgrades.py crates/auction/out/auction
	python3 tests/files/other_orders.py crates/auction/out/auction $(SEED)

columns:
	python3 tests/files/spoiled_columns.py crates/auction/out/auction $(EVERY)

office:
	python3 tests/office/lots.py crates/auction/out/auction $(ROWS) $(SEED)
	python3 tests/office/accounts.py crates/auction/out/auction

kills:
	python3 tests/files/kills.py crates/auction/out/auction $(KILLS) $(SEED)

stops:
	python3 tests/files/stopped_calls.py crates/auction/out/auction $(EVERY)

cuts:
	python3 tests/files/power_cuts.py crates/auction/out/auction $(EVERY)

counts:
	python3 tests/files/statement_counts.py crates/auction/out/auction

stalls:
	python3 tests/program/stalls.py crates/auction/out/auction

axioms:
	python3 tests/kit/axioms.py auction

documents:
	python3 tests/documents/figures.py
	python3 tests/documents/documents.py crates/auction/out/auction
	python3 tests/documents/http_doc.py crates/auction/out/auction
	python3 tests/documents/running_doc.py crates/auction/out/auction

openapi:
	python3 tests/documents/openapi.py $(addprefix $(CASES)/,$(DESCRIBED))

wrong:
	python3 tests/kit/wrong.py $(CRATES)

reasons:
	python3 tests/kit/reasons.py $(CRATES)

mutants:
	python3 tests/kit/mutants.py $(SEED) $(COUNT) $(CRATES)

plant:
	python3 tests/kit/plant.py $(CRATES)

giving:
	python3 tests/kit/giving_up.py $(BODIES)

gateway:
	@echo "Debian's packages: $(GATEWAY_PACKAGES)"
	python3 tests/web/gateway.py crates/auction/out/auction $(PERIOD) $(RESTARTS)

load:
	@echo "Debian's packages: $(LOAD_PACKAGES)"
	python3 tests/web/gateway_load.py crates/auction/out/auction $(PAGES)

page:
	@echo "Debian's packages: $(PAGE_PACKAGES)"
	if command -v node > /dev/null; then node --test tests/web/page_modules.mjs tests/web/page_language.mjs; fi
	if command -v tsc > /dev/null; then tsc -p tests/web/page_types.json; fi
	python3 tests/web/page.py crates/auction/out/auction $(PICTURES)

backup:
	@echo "Debian's packages: $(BACKUP_PACKAGES)"
	python3 tests/files/backup.py crates/auction/out/auction $(COPIES)

service:
	@echo "Debian's packages: $(SERVICE_PACKAGES)"
	python3 tests/web/alerts.py
	python3 tests/web/service_watch.py
	python3 tests/web/service_queue.py crates/auction/out/auction

replica:
	@echo "Debian's packages: $(REPLICA_PACKAGES)"
	if command -v glusterd > /dev/null; then python3 tests/files/replica.py crates/auction/out/auction; fi
	if command -v keepalived > /dev/null; then python3 tests/files/take_over_name.py crates/auction/out/auction; fi

disks:
	@echo "Debian's packages: $(DISK_PACKAGES)"
	python3 tests/files/failed_disk.py crates/auction/out/auction

deb:
	@echo "Debian's packages: $(DEB_PACKAGES)"
	mkdir -p out
	python3 tests/web/package.py crates/auction/out/auction out $(DEBIAN)

packages:
	apt-get install -y --no-install-recommends $(PAGE_PACKAGES) wrk $(BACKUP_PACKAGES) $(SERVICE_PACKAGES) \
		$(REPLICA_PACKAGES) $(DISK_PACKAGES) $(DEB_PACKAGES)
