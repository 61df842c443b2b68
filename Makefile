# demo, lib, test and edits need the Rattle kit (rt) on the PATH and nothing else; times and census also python3.
.PHONY: help demo lib test edits times census

help:
	@echo "make demo    the main job: from the season's sheet to a page; proves the library first"
	@echo "make lib     the library for C, crates/nahypora/out/libnahypora.a; proves it first"
	@echo "make test    the gate: every crate proved, every must-fail edit refused, every program run"
	@echo "make edits   the must-fail edits alone (CRATE=NAME: those of one crate); what has not changed is not tried again"
	@echo "make times   seconds by crate of the last run of tools/prove.sh"
	@echo "make census  the must-fail edits by public call, and which of document 01's wrong programs each one shows"

# The main job: builds the tool, makes the season's phrase file, checks it, encodes a message and writes its page.
demo:
	@echo "proving the library and building the tool, with a line for each crate"
	@sh tools/prove.sh phrases
	@cd crates/phrases && rt run -- help > /dev/null
	@sh tools/demo.sh

# The library for C.
lib:
	@sh tools/prove.sh nahypora
	@cd crates/nahypora && rt lib > /dev/null
	@echo "crates/nahypora/out/libnahypora.a is built; link it with: cc -Iinclude YOUR.c crates/nahypora/out/libnahypora.a"

# The gate.
test:
	@bash .ci/run

edits:
	@sh tools/prove.sh $(CRATE)
	@rt must-fail $(CRATE)

times:
	@python3 tools/times.py

census:
	@python3 tools/census.py
