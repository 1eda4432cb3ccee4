# `make` proves and builds the program; `make demo` runs it on the examples; `make shop` runs a shop beside it; `make test` is what CI runs;
# `make install` puts the program, its manual, the service and the libraries under PREFIX.
.PHONY: build demo shop test edits bench install

PREFIX ?= /usr/local

build:
	./build

demo:
	./demo

# Sixty orders over fresh files; after each 25 the shop goes on in other files.
shop:
	@folder=$$(mktemp -d) && trap 'rm -rf "$$folder"' EXIT && examples/shop/shop.py "$$folder" --orders 60 --orders-in-files 25

# A hundred trips in Python and in JavaScript, on a PostgreSQL server of their own.
.PHONY: travel
travel:
	@examples/travel/run

test:
	./gate

# It builds the program first where that isn't built, or isn't told by PROGRAM.
install:
	@[ -n "$(PROGRAM)" ] || ./build --is-built || ./build
	PROGRAM="$(PROGRAM)" service/deploy/install "$(DESTDIR)" "$(PREFIX)"

# Tries every wrong body, or with CRATES="A B" those of these crates.
edits:
	tests/edits $(CRATES)

# Times the calls that have to stay quick on large inputs, and the check of the worst text within 1 MiB, over what was proved before;
# no part of the gate. With BENCHES="A B" only these of bench/.
bench:
	bench/all $(BENCHES)
