# With no target: what there is.
.PHONY: help demo build serve install examples prove minutes names judged

help:
	@echo 'make demo      compile the server without proving it, replay examples/hello.script, print its report;'
	@echo '               with EXAMPLE=NAME another script of examples/'
	@echo 'make build     prove and build the program, and say where it stands'
	@echo 'make serve     build it, and serve examples/www on port 8080 until it is ended (control-C)'
	@echo 'make install   copy the program and its man page below PREFIX ($(PREFIX))'
	@echo 'make examples  copy the scripts that the gate runs, and their reports, into examples/'
	@echo 'make prove     prove every crate, try the must-fail edits, run the tests and the programs (rt ci)'
	@echo 'make minutes   the processor minutes of the last such run, a crate each'
	@echo 'make names     the laws and clauses that the documents name and that are not there'
	@echo 'make judged    whether the lists of what a judge reads are right'

EXAMPLE = hello
PROGRAM = crates/lighttpd/out/lighttpd
PREFIX = /usr/local

# `rt try` runs in a folder of its own, which gets the two files.
demo:
	@echo 'compiled and run without proving it (make prove proves it):'
	@cd crates/lighttpd && rt try --data hello.conf=../../examples/hello.conf --data example.script=../../examples/$(EXAMPLE).script \
		-- replay -f hello.conf example.script

# `rt run` proves what was not proved before, and runs the program; what it says of the proof goes to standard error.
build:
	@cd crates/lighttpd && rt run -- bench 1 > /dev/null
	@echo '$(CURDIR)/$(PROGRAM)'

# A document root begins with /, so examples/static.conf leaves it to the text that includes it.
serve: build
	@mkdir -p out
	@printf 'var.www = "%s/examples/www"\ninclude "examples/static.conf"\n' '$(CURDIR)' > out/serve.conf
	@echo 'curl http://127.0.0.1:8080/index.html fetches the page'
	@exec $(PROGRAM) -f out/serve.conf

# Nothing is built here, so that it may be called by another user than the one who builds.
install:
	@test -x $(PROGRAM) || { echo 'make build comes first' >&2; exit 1; }
	install -D -m 755 $(PROGRAM) '$(DESTDIR)$(PREFIX)/sbin/lighttpd'
	install -D -m 644 docs/lighttpd.8 '$(DESTDIR)$(PREFIX)/share/man/man8/lighttpd.8'

# The gate runs these scripts where they lie, and takes no links: examples/ has copies.
examples:
	@cp crates/worked_rows/data/pipelining.* crates/worked_rows/data/chunked_body.* crates/worked_rows/data/slow_client.* \
		crates/worked_rows/data/failing_client.* crates/worked_rows/data/failing_disk.* crates/worked_rows/data/hello.* examples

prove:
	@python3 bench/minutes.py record

minutes:
	@python3 bench/minutes.py

names:
	@python3 bench/named.py

judged:
	@python3 bench/judged.py
