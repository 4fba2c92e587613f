# run: the messages of a sample recording. records: a recording's message records, as a file. busiest: their busiest stretch.
# test: all proofs, must-fail edits, programs and comparisons. lib: the static library for C or Rust, with its header beside it.
# bench: times.
RECORDING = crates/yoldrim/stdin
RECORDS = target/records.bin
WIDTH = 600
ARGUMENTS =
ROUNDS = 250
TICKS = 4000000
SOURCES = crates.txt $(shell find crates -name out -prune -o \( -name '*.rt' -o -name '*.antt' \) -print)

.PHONY: run records busiest test lib bench

run: target/bin/yoldrim
	@target/bin/yoldrim < $(RECORDING)

# Of a recording with a refused block the file holds the records before it, and make ends with an error. So the sample is that of `run`
# without its last block, which is refused.
records: RECORDING = crates/records/stdin
records: target/bin/records
	@target/bin/records < $(RECORDING) > $(RECORDS)
	@echo "$(RECORDS): $$(($$(wc -c < $(RECORDS)) / 32)) records"

# Of a file that `records` made, or the planner's sample.
busiest: RECORDS = crates/planner/stdin
busiest: target/bin/planner
	@target/bin/planner $(WIDTH) < $(RECORDS)

# rt proves what has changed and builds the program, which it then runs, here on no input. What it shows goes to standard error, so that
# what the program prints stands alone.
target/bin/%: $(SOURCES)
	@bash tests/progress.sh target/$*.log bash tests/in_crate.sh $* run $(ARGUMENTS) >&2
	@mkdir -p target/bin
	@cp crates/$*/out/$* $@

target/bin/planner: ARGUMENTS = -- 1

lib: target/libyoldrim.a

target/libyoldrim.a: $(SOURCES) include/yoldrim.h
	@bash tests/progress.sh target/lib.log bash tests/in_crate.sh capi lib
	@cp crates/capi/out/libcapi.a $@
	@cp include/yoldrim.h target/
	@echo "made $@, with yoldrim.h beside it"

test:
	@bash tests/all.sh $(ROUNDS)

bench: target/bin/yoldrim target/libyoldrim.a
	@bash tests/bench.sh $(TICKS)
