# `make run` does the main job on a sample, `make test` runs the whole gate, `make bench` times the library.
.PHONY: run test bench fmt

CC = gcc

run:
	@mkdir -p target
	@echo 'Proving and building the listing program and the library for C. From nothing this takes some minutes; target/run.log shows how far it is.'
	@tools/build list > target/run.log 2>&1 || { cat target/run.log; exit 1; }
	@tools/build library >> target/run.log 2>&1 || { cat target/run.log; exit 1; }
	@$(CC) -std=c11 -Wall -Wextra -Werror -pedantic -O2 -Iinclude examples/gateway.c target/staticlib/libgateway.a -o target/gateway
	@echo
	@echo 'The layout in samples/listing/layout_b.pages: its generation and its components, each with id, begin, end, kind, stripe count, size and first target.'
	@target/bin/list < samples/listing/layout_b.pages
	@echo
	@echo 'What a gateway fetches for a read of 1,000 bytes from file byte 16777000 of it. The read goes past the end of component 1, which grows first.'
	@target/gateway samples/layout_b.pages 16777000 1000

test:
	.ci/run

# Both programs, the library and the independent one in host/, in one run.
bench:
	@tools/build library > /dev/null
	@cd host && cargo run --release --offline --quiet --bin bench

fmt:
	for crate in crates/*/; do (cd $$crate && rt fmt) || exit 1; done
	cd host && cargo fmt
