# make lib: the C library (include/cradlekeel.h), from the crate cct_c once it and all below it are proved.
LIB := target/lib
LOG := target/lib.log
SOURCES := crates.txt $(shell find crates \( -name must-fail -o -name out \) -prune -o \( -name '*.rt' -o -name '*.antt' \) -print)

.DELETE_ON_ERROR:
.PHONY: lib
lib: $(LIB)/libcradlekeel.a $(LIB)/libcradlekeel.so
	@echo "built: $^"

$(LIB)/libcradlekeel.a: $(SOURCES)
	@mkdir -p $(LIB)
	@command -v rt >/dev/null || { echo "the library is not built, and the Rattle toolchain (the command rt) is not on the PATH"; exit 1; }
	@echo "proving and building the library, which can take many minutes (rt lib in crates/cct_c) .."
	@(cd crates/cct_c && rt lib) >$(LOG) 2>&1 || { tail -n 5 $(LOG); echo "rt lib in crates/cct_c failed; all that it said is in $(LOG)"; exit 1; }
	@cp crates/cct_c/out/libcct_c.a $@.new && mv $@.new $@

$(LIB)/libcradlekeel.so: $(LIB)/libcradlekeel.a
	@gcc -shared -o $@.new -Wl,-soname,libcradlekeel.so -Wl,-z,defs -Wl,--whole-archive $< -Wl,--no-whole-archive && mv $@.new $@
