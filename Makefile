# make run   builds what is needed and runs a session: the worked one, or SESSION=FILE
# make test  proves every crate and compares; its last line is "N passed, 0 failed"
# make bench counts the instructions that an entry takes, beside a watch written by hand

.PHONY: run test bench clean

SESSION = examples/board.hex

run:
	@scripts/run '$(SESSION)'

test:
	@scripts/test

bench:
	@scripts/bench

clean:
	rm -rf target crates/*/out oracle/target bench/target .tools
