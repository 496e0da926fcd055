# make: the archive and the C example; make test: tests/run; make clean: removes what these made, and leaves what is proved.
# An archive that lies elsewhere: make clean, and name its folder in ORGAMISH_LIB_DIR.

lib_dir := $(or $(ORGAMISH_LIB_DIR),target/staticlib)
archive := $(lib_dir)/liborgamish_c.a
proved := $(shell find crates -name out -prune -o -name '*.rt' -print -o -name '*.antt' -print)
strict := -Wall -Wextra -Wpedantic -Werror -Iinclude

.PHONY: all header test clean

all: $(archive) target/examples/readings

target/staticlib/liborgamish_c.a: $(proved)
	cd crates/orgamish_c && rt lib
	mkdir -p $(@D)
	cp crates/orgamish_c/out/liborgamish_c.a $@

target/examples/%: examples/%.c include/orgamish.h $(archive)
	mkdir -p $(@D)
	$(CC) -std=c99 $(strict) -O2 $< $(archive) -o $@

target/tests/%: tests/%.c include/orgamish.h $(archive)
	mkdir -p $(@D)
	$(CC) -std=c99 $(strict) -O2 -pthread $< $(archive) -o $@

# by itself, as C and as C++
header:
	$(CC) -std=c99 $(strict) -fsyntax-only -x c include/orgamish.h
	$(CXX) -std=c++11 $(strict) -fsyntax-only -x c++ include/orgamish.h

test:
	tests/run

clean:
	rm -rf target/staticlib target/examples target/tests target/cargo
