# make demo   runs two example scripts on one store, by a program that is built without proofs
# make try SCRIPT=my.tsdb STORE=store   runs a script of your own on a store of your own, by such a program; several scripts,
#             one after another by one build: SCRIPT="my-1.tsdb my-2.tsdb"
# make build  proves the program and leaves it at bin/tsdb
# make bench  proves the programs and prints what they take; GROUP=name measures one group
# make check  looks in seconds at what the documents, the headline and the wrong bodies name, and at the layout of the crates
# make bend   times scripts that put each structure to its worst at n, 2n and 4n, and prints how it grows
# make check-disk   kills the program in the middle of its writes on a disk, refuses it memory, lets each call of the system
#                   fail in turn, cuts the power by a model of a disk, and looks at what the next run finds; compares every
#                   end of a run with the documents, and many scripts with a plain slow store and a plain reader; runs a
#                   plant's day with a flush and a compaction; stores many files
# make wrong-bodies   tries the wrong bodies in must-fail/ and wrong-bodies/ of all crates, or of those of CRATE="name .."
# make crates  prints the list of crates of docs/ARCHITECTURE.md; checks/crates --write puts it there
# make proofs   proves every crate, tries the wrong bodies, and runs every test and program
# make test   is the gate: the proofs, and what is behind them
.PHONY: demo build bench bend check-disk check wrong-bodies proofs test

demo:
	@folder=$$(mktemp -d) && trap 'rm -rf "$$folder"' EXIT && \
	examples/run_unproved "$$folder/store" examples/plant.tsdb examples/later.tsdb

.PHONY: try
try:
	@[ -n "$(SCRIPT)" ] && [ -n "$(STORE)" ] || { echo 'make try SCRIPT=my.tsdb STORE=store' >&2; exit 2; }
	@examples/run_unproved "$(STORE)" $(SCRIPT)

build:
	@mkdir -p bin
	@folder=$$(mktemp -d) && trap 'rm -rf "$$folder"' EXIT && cd crates/tsdb_cli && \
	rt run -- run "$$folder/store" < /dev/null > /dev/null && cp out/tsdb_cli ../../bin/tsdb

bench: build
	@echo 'Proving and building the program tsdb_bench ...' >&2
	@cd crates/tsdb_bench && rt run -- quick >&2
	@case " scripts durable compactions queries sizes openings " in *" $(or $(GROUP),none) "*) ;; \
	    *) crates/tsdb_bench/out/tsdb_bench $(GROUP);; esac
	@[ -n "$(GROUP)" ] && [ "$(GROUP)" != stored ] || if command -v rustc > /dev/null; then \
	    rustc --edition 2024 -O -o bin/bare_files bench/bare_files.rs && bin/bare_files; \
	    else echo 'The bare calls beside the stored files were not measured: there is no rustc' >&2; fi
	@[ -n "$(GROUP)" ] && [ "$(GROUP)" != scripts ] || bench/scripts.py bin/tsdb
	@[ -n "$(GROUP)" ] && [ "$(GROUP)" != durable ] || bench/durable.py bin/tsdb
	@[ -n "$(GROUP)" ] && [ "$(GROUP)" != compactions ] || bench/compactions.py bin/tsdb
	@[ -n "$(GROUP)" ] && [ "$(GROUP)" != compactions ] || bench/compaction_memory.py bin/tsdb
	@[ -n "$(GROUP)" ] && [ "$(GROUP)" != queries ] || bench/queries.py bin/tsdb
	@[ -n "$(GROUP)" ] && [ "$(GROUP)" != sizes ] || bench/sizes.py bin/tsdb
	@[ -n "$(GROUP)" ] && [ "$(GROUP)" != openings ] || bench/openings.py bin/tsdb

bend: build
	@checks/bend bin/tsdb

check-disk: build
	@checks/kill bin/tsdb --kills 50 --disk
	@checks/statuses bin/tsdb
	@checks/memory bin/tsdb
	@checks/faults bin/tsdb --pairs 5000
	@checks/power bin/tsdb
	@checks/plants bin/tsdb
	@checks/scripts bin/tsdb --first 5001 --count 20000
	@checks/lines bin/tsdb --first 5001 --count 20000
	@cd crates/tsdb_bench && rt run -- quick >&2
	@checks/files crates/tsdb_bench/out/tsdb_bench

check:
	@checks/docs
	@checks/wrong_bodies
	@checks/headline > /dev/null
	@checks/layout
	@checks/names

proofs:
	@rt ci

wrong-bodies:
	@checks/try_wrong_bodies $(CRATE)

test:
	@.ci/run

.PHONY: crates definitions clauses
crates:
	@checks/crates

definitions:
	@checks/definitions $(CRATE)

clauses:
	@checks/definitions --clauses $(CRATE)
