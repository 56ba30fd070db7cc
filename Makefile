# The worked rows that `make test` runs are those whose needs are all listed here.
ROWS = ac,ac -d,ac -f,ac -p,all,askers,by-file,check,choice,clock,csv,database,feeders,files,full-device,last,last -f,last -n,lastb,lastb --sum,lastb -f,lastb -n,millions,moment,names,offset,paths,period,sa,sa -a,sa -m,sa -n,sa -r,uid,until,version3,zone
PREFIX ?= /usr/local
PROGRAM = crates/tally/out/tally
INTO = $(DESTDIR)$(PREFIX)

# What `make look` asks, and of which files.
WORDS = ac -p
FILES = examples/morning.wtmp

.PHONY: build look test test-anew test-edits test-big pictures install uninstall dist clean

# Proves every crate that the program stands on, and builds it.
build:
	@.ci/build

# A first answer in a minute or two, NOT PROVED: make look WORDS="last -n 5" FILES=/var/log/wtmp
look:
	@.ci/look $(WORDS) $(FILES)

# The gate: every proof and test from nothing, the wrong bodies and the cost of each crate that .ci/tried does not have as it stands, then every run
# of the program. What passed on this machine is kept by checksums, and is done again where a change may have touched it.
test:
	@.ci/gate "$(ROWS)"

# The same of every crate, whatever is kept or recorded.
test-anew:
	@.ci/gate "$(ROWS)" --anew

# What proofs cost, and every wrong body, or those of some crates alone, and records both in .ci/tried: make test-edits CRATES="tally_book tally_desk"
test-edits: build
	@.ci/cost
	@.ci/edits --record $(CRATES)

# The rows and the cases with inputs of 402 MB and more, and `sa` over 17 GB. `make test` or `make build` comes first.
test-big:
	rows/tools/run --only "$(ROWS),big" $(PROGRAM) endless-zeros-ac
	rows/tools/surroundings --big $(PROGRAM)
	rows/tools/volume --big $(PROGRAM)
	rows/tools/millions --big $(PROGRAM)

# The pictures of docs/pictures, by gnuplot from the files of examples/.
pictures: build
	examples/pictures/draw $(PROGRAM)

# The program, its manual, completions for bash, zsh and fish, and its tables for sqlite3.
install: build
	install -d "$(INTO)/bin" "$(INTO)/share/man/man1" "$(INTO)/share/bash-completion/completions"
	install -d "$(INTO)/share/zsh/site-functions" "$(INTO)/share/fish/vendor_completions.d"
	install -m 755 $(PROGRAM) "$(INTO)/bin/tally"
	install -m 644 man/tally.1 "$(INTO)/share/man/man1/tally.1"
	install -m 644 completions/tally.bash "$(INTO)/share/bash-completion/completions/tally"
	install -m 644 completions/_tally "$(INTO)/share/zsh/site-functions/_tally"
	install -m 644 completions/tally.fish "$(INTO)/share/fish/vendor_completions.d/tally.fish"
	install -d "$(INTO)/share/tally"
	install -m 644 examples/tables.sql "$(INTO)/share/tally/tables.sql"

uninstall:
	rm -f "$(INTO)/bin/tally" "$(INTO)/share/man/man1/tally.1" "$(INTO)/share/bash-completion/completions/tally"
	rm -f "$(INTO)/share/zsh/site-functions/_tally" "$(INTO)/share/fish/vendor_completions.d/tally.fish"
	rm -f "$(INTO)/share/tally/tables.sql"
	[ ! -d "$(INTO)/share/tally" ] || rmdir "$(INTO)/share/tally"

# One archive for a machine without the kit: program, manual, completions, tables, and SHA256SUMS of these, in out/.
dist: build
	@.ci/dist $(PROGRAM)

clean:
	rm -rf crates/*/out out
