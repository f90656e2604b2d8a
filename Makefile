# make demo: builds the proved library and shows it at work; make test: the gate
.PHONY: demo test wrong install bench soak peers house contracts archive

# the proved library for C and Rust: target/staticlib/libphuyurik.a
archive:
	@mkdir -p target; echo 'The library is proved and built: minutes from nothing, seconds where nothing changed.'
	@./host/archive.sh >target/archive.log || { cat target/archive.log; exit 1; }

CARGO = cd host && PHUYURIK_ARCHIVE=$(CURDIR)/target/staticlib cargo

demo: archive
	@$(CARGO) run --quiet --release -- demo

test:
	bash .ci/run

# the wrong answers of the crates named, over what `rt check` has proved of them: make wrong alu fuses
ifeq (wrong,$(firstword $(MAKECMDGOALS)))
tried := $(wordlist 2,$(words $(MAKECMDGOALS)),$(MAKECMDGOALS))
.PHONY: $(tried)
$(tried): ; @:
endif
wrong:
	@rt must-fail $(tried)

# the header, the archive, a pkg-config file and the tool, under PREFIX
PREFIX = /usr/local
install: archive
	@$(CARGO) build --quiet --release
	@./host/install.sh "$(PREFIX)"

# million steps a second, as docs/BENCHMARKS.md has them
bench: archive
	@$(CARGO) run --quiet --release -p bench

# both emulators on new random inputs until they differ
soak: archive
	@$(CARGO) run --quiet --release -p compare -- --seconds 0

# against binutils, LLVM and qemu; needs the network
peers: archive
	@PHUYURIK_ARCHIVE=$(CURDIR)/target/staticlib ./host/peers/peers.sh

# docs/HOUSE.md, what each crate is and which uses which, from crates.txt
house:
	@mkdir -p target; ./docs/house.sh >target/HOUSE.md && cp target/HOUSE.md docs/HOUSE.md

# docs/CONTRACTS.md, every public contract, from the sources
contracts:
	@mkdir -p target; cd host && cargo run --quiet -p contracts >../target/CONTRACTS.md && cp ../target/CONTRACTS.md ../docs/CONTRACTS.md
