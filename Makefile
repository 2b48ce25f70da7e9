# The usual names for the commands of the repository.
.PHONY: build test docs bench release

# Proves and builds the program, and runs nothing.
build:
	./desk build

# The gate.
test:
	./check

# Makes the generated pages anew, and compares the documents with the tree.
docs:
	scripts/docs/list-crates --write
	scripts/docs/list-definitions --write
	scripts/docs/page-files --write
	scripts/docs/list-wrong-bodies --write
	scripts/docs/compare-docs

# Measures the program that is built.
bench:
	scripts/bench/commit-latency
	scripts/bench/replay-speed
	scripts/bench/read-latency
	scripts/bench/view-change-seconds
	scripts/bench/answer-speed
	scripts/bench/node-memory
	scripts/bench/epoch-starts
	scripts/bench/long-run
	scripts/bench/laggard
	scripts/bench/page-speed
	scripts/bench/beside-etcd
	scripts/bench/beside-rust

# make release VERSION=1.0.0: an archive of the program as LLVM compiles it.
release:
	scripts/build/release $(VERSION)
