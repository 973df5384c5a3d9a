# make: proves everything, builds the archive and the programs `show` and `explain`, and moves a guest and the words of an XICS in the demo. make
# check: the whole gate, which installs what is missing; every other target only names it.
.PHONY: all check faults header demo arm bench show explain audit clean
all:
	@scripts/tools rt gcc
	rt all check
	scripts/library
	scripts/programs show explain
	scripts/demo

check:
	@scripts/check

# the planted faults that the second program must find
faults:
	@scripts/tools rt cargo rustc gcc
	scripts/library
	scripts/second faults

# the C header against the archive and the source
header: target/staticlib/libritikancha.a
	scripts/header

# a guest moves from one box to another: target/demo/migrate; and so do the words of an XICS: target/demo/xics
demo: target/staticlib/libritikancha.a
	scripts/demo

# target/arm/libritikancha.a, and the demo and the second program's sequences run on it under qemu
arm:
	scripts/arm

target/staticlib/libritikancha.a: crates.txt $(shell find crates -name out -prune -o \( -name '*.rt' -o -name '*.antt' \) -print)
	@scripts/tools rt
	scripts/library

# the showing program held against the second program's, image by image
show:
	@scripts/tools rt cargo rustc gcc
	scripts/programs show
	scripts/library
	scripts/second build
	scripts/show

# the explaining program held against the second program's, image by image
explain:
	@scripts/tools rt cargo rustc gcc
	scripts/programs explain
	scripts/library
	scripts/second build
	scripts/explain

# what the proofs rest on, against docs/audit.txt; after make check
audit:
	scripts/audit

# the library beside plain C that keeps the same rules: times, and the most stack that a call uses. Loops are aligned: where plain C's search
# of blank entries falls by chance, it takes up to twice as long
BENCH_CFLAGS = -std=c11 -O2 -falign-loops=32 -Wall -Wextra -Wpedantic -Werror -Iinclude
BENCH_OBJECTS = $(patsubst bench/%.c,target/bench/%.o,$(wildcard bench/*.c))

bench:
	@scripts/tools rt gcc
	scripts/library
	@$(MAKE) --no-print-directory target/bench/bench
	@target/bench/bench

target/bench/bench: $(BENCH_OBJECTS) target/staticlib/libritikancha.a
	gcc -o $@ $^

target/bench/%.o: bench/%.c $(wildcard bench/*.h) include/ritikancha.h
	@mkdir -p target/bench
	gcc $(BENCH_CFLAGS) -c -o $@ $<

clean:
	rm -rf target
