# make run   shows what the desk answers to README's session and to a batch, by a quick build that proves nothing
# make desk  proves and builds the desk, and leaves the program at build/desk; the crates that it stands on are proved side by side
# make order_check  leaves the built check of order files at build/order_check
# make line_check  leaves the built check of lines at build/line_check
# make desk_check  leaves the built check of a desk's file at build/desk_check
# make genealogy_picture  leaves the built program that draws genealogies at build/genealogy_picture
# make bench_lists  leaves the keeper of lists, which tests/test_keepers.py compares with the desk, at build/bench_lists
# make dist  packs the built programs in build/ with pages of the manual, completions and a unit for systemd, as tar.gz and for Debian
# make test  the gate (gate/test.sh): every proof, must-fail edit, test and program from nothing, then the tests of the built programs (tests/)
# make edits has the prover try the edits that the gate doesn't, of all crates or of some: make edits NAMES="plant_tables"
# What repeats the tables, the commands and the questions of the desk is written by make/tables.py, make/commands.py and make/questions.py, each
# from one description, and the gate compares.
.PHONY: run desk order_check line_check desk_check genealogy_picture bench_lists dist test edits

run:
	@make/run.py

desk order_check line_check desk_check genealogy_picture bench_lists:
	@make/side_by_side.py $@

dist: desk order_check line_check desk_check genealogy_picture
	make/package.py build/desk build/order_check build/line_check build/desk_check build/genealogy_picture build

test:
	gate/test.sh

edits:
	gate/edits.py try $(NAMES)
