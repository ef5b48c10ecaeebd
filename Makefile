# Builds, tests and installs the program `sixel` and the library for C.
# `rt` proves each crate once, and compiles it over that proof.
#
#   make              builds the program, and in out/ the library for C
#   make check        proves and tests everything
#   make test         runs the test suite over what is built
#   make mutants      tries all mutants, before a release
#   make verdict      proves everything anew by `rt ci`, before a release
#   make bench        times the program and the library
#   make rust         writes the project as plain Rust to out/rust and builds it by cargo, unproved
#   make lib-rust     builds the library for C of it in out/rust/out
#   make lib-aarch64  builds the library for aarch64 in out/aarch64, by Debian's cross compiler
#   make lib-v3       builds the shared library for x86-64-v3 in out/x86-64-v3
#   make dist         makes the files of a release in out/dist
#   make abi          renews abi/icysixel.txt, the library's binary interface
#   make install      copies all to DESTDIR/PREFIX, which is /usr/local by default, and the library
#                     to LIBDIR below it, which is lib
#   make uninstall    removes what `make install` has copied
#   make clean        removes what is built
#
# make program, lib, install-program and install-lib do one half. make viewer and install-viewer are
# in scripts/viewer.mk; make install does not install the viewer. CPU=x86-64-v3 builds for newer
# processors until another CPU is given; x86-64-v2 is the default. CC compiles the memory hooks and
# links the shared library.

MAKEFLAGS += --no-builtin-rules

program = crates/sixel/out/sixel
programs = $(foreach path,$(wildcard crates/*/src/main.rt),$(path:%/src/main.rt=%/out/)$(word 2,\
	$(subst /, ,$(path))))
tests = crates/sixel_tests/out/sixel_tests
tests_by_rattle = $(tests).by-rattle
crate = crates/icysixel
archive = $(crate)/out/libicysixel.a
archive_by_rattle = $(crate)/out/libicysixel.by-rattle.a
# The Makefile of plain Rust.
plain = out/rust/Makefile
# The archives for other processors than this one.
others = aarch64 x86-64-v3
archives_for_others = $(others:%=$(crate)/out/libicysixel.%.a)

all: program lib

program: $(program)

include scripts/library.mk scripts/viewer.mk

lib-aarch64: out/aarch64/libicysixel.a out/aarch64/shared/libicysixel.so

lib-v3: out/x86-64-v3/shared/libicysixel.so

# Plain Rust has a Makefile of its own, which does not need the kit.
rust: $(plain)
	$(call plain_rust,workspace)

lib-rust: $(plain)
	$(call plain_rust,lib)

program-rust: $(plain)
	$(call plain_rust,program)

check:
	./check

built: out/proved lib

# Runs the tests inside the crates.
unit: $(foreach path,$(shell grep -lr '^ *\#\[test\]' crates/*/src),out/unit.$(word 2,$(subst /, ,$(path))))

test: built
	python3 tests

mutants: built
	scripts/mutants

verdict:
	rt ci

bench: all
	python3 bench

dist: all lib-aarch64 lib-v3
	@$(call has,cargo,install Rust 1.88 or newer)
	@$(call has,dh,install debhelper)
	@test -z '$(filter-out --cpu x86-64-v2,$(cpu))' || \
		$(call stop,a release is for all processors: run make dist CPU=x86-64-v2)
	scripts/dist $(version) $(soname)

abi: $(shared)
	scripts/abi $(header) $(shared) abi/icysixel.txt

clean:
	rm -rf out crates/*/out

.PHONY: all program lib-aarch64 lib-v3 rust lib-rust program-rust check built unit test mutants \
	verdict bench dist abi clean

# The crates of crates.txt, lowest first, and those that a crate uses.
crates := $(shell sed -n 's/^\([a-z_]*\).*:.*/\1/p' crates.txt)
used = $(filter $(crates),$(shell sed -n 's/^$1\( [^:]*\)*://p' crates.txt))
libraries := $(filter $(foreach name,$(crates),$(call used,$(name))),$(crates))

# The proofs that a crate builds on, and the files of a crate.
proofs = $(foreach name,$(call used,$1),crates/$(name)/out/proved)
sources = crates.txt $(wildcard out/cpu) $(shell find $(wildcard $(foreach folder,src specs proofs,\
	crates/$1/$(folder))))

# The processor that was chosen last, if one was. out/cpu counts as a source of each build. A run
# with -n does not write it.
chosen := $(shell cat out/cpu 2>&-)
is_dry := $(findstring n,$(filter-out --%,$(firstword $(MAKEFLAGS))))
ifneq ($(if $(is_dry),,$(filter-out $(chosen),$(CPU))),)
$(shell mkdir -p out && echo $(CPU) >out/cpu)
endif
cpu = $(addprefix --cpu ,$(or $(CPU),$(chosen)))

# What is built is as old as its start, because a source may change meanwhile.
begun = out/begun.$(subst /,.,$@)
start = @mkdir -p out $(@D) && touch $(begun)
end = @touch -r $(begun) $@

# Reports which crate is proved, of how many: all, or those up to the program that is asked for; and
# the minutes since make was started.
place = $(shell grep -v '^\#' crates.txt | grep -n '^$1[ :]' | cut -d: -f1)
goal = $(filter $(crates),$(notdir $(MAKECMDGOALS)))
started := $(shell date +%s)
report = @echo "$1 $2, crate $(call place,$2) of $(or $(call place,$(goal)),$(words $(crates)))," \
	"after $$((($$(date +%s) - $(started)) / 60)) minutes"

# Runs `rt` in a folder, with its output in a file of out/. An error shows the end of that file.
jobs := $(or $(filter 1 2 3,$(shell nproc)),4)
define rt
@$(call has,rt,put the bin folder of the Rattle kit in PATH)
@(cd $1 && rt $2) >$(begun).log 2>&1 </dev/null || { tail -n 40 $(begun).log >&2; \
	test $$(df -Pk . | awk 'NR == 2 {print $$4}') -gt 1000000 && exit 3; \
	$(call stop,less than 1 GB of disk is free: free 3 GB and run make again); }
endef

# Writes the project as plain Rust, whose Makefile is as new as all of it.
plain_rust = @$(MAKE) -s -C out/rust CPU=$(or $(CPU),$(chosen),$(cpu_of_$(shell uname -m))) $1
cpu_of_x86_64 = x86-64-v2
$(plain): $(wildcard out/cpu) $(shell find $(wildcard rust scripts crates/*/src crates/icysixel) \
	-type f -not -path '*/out/*' -not -path '*/target/*')
	$(start)
	python3 scripts/plain_rust out/rust
	$(end)

# Proves and builds a library.
$(libraries:%=crates/%/out/proved): crates/%/out/proved: $$(call sources,$$*) $$(call proofs,$$*)
	$(call report,proving,$*)
	$(start)
	$(call rt,crates/$*,lib --jobs $(jobs))
	$(end)

# Proves the crates that are left, and stops at a file that no check reads.
out/proved: $$(foreach name,$$(crates),$$(call sources,$$(name))) $(programs) $(archive)
	@echo 'checking all crates'
	$(start)
	$(call rt,.,all check --jobs $(jobs))
	$(end)

# `rt run` proves, compiles and runs a program, with the arguments in the file args and its data.
run = run --jobs $(jobs) $(cpu) $1 -- $$(cat args) $$(ls -d data 2>/dev/null)
$(programs): $$(call sources,$$(@F)) $$(call proofs,$$(@F))
	$(call report,building,$(@F))
	$(start)
	$(call rt,crates/$(@F),$(run))
	$(end)

# Rattle's own compiler writes the program to the same file as LLVM.
$(tests_by_rattle): $$(call sources,sixel_tests) $$(call proofs,sixel_tests)
	$(start)
	$(call rt,crates/sixel_tests,$(call run,--backend rattle))
	@mv $(tests) $@
	$(end)

$(tests): $(tests_by_rattle)

# Runs the tests inside a crate.
out/unit.%: $$(call sources,$$*) $$(call proofs,$$*)
	$(call report,testing,$*)
	$(start)
	$(call rt,crates/$*,test --jobs $(jobs))
	$(end)

# `rt lib` writes either archive to the same file.
$(archive_by_rattle): $$(call sources,icysixel) $$(call proofs,icysixel)
	$(call report,building,icysixel)
	$(start)
	$(call rt,$(crate),lib --jobs $(jobs) $(cpu) --backend rattle)
	@mv $(archive) $@
	$(end)

$(archive): $(archive_by_rattle)
	$(start)
	$(call rt,$(crate),lib --jobs $(jobs) $(cpu))
	$(end)

# So does `rt lib` for another processor, one after the other. The archive of this one is moved away
# meanwhile.
aarch64 = --target aarch64-unknown-linux-gnu
x86-64-v3 = --cpu x86-64-v3
$(archives_for_others): $(crate)/out/libicysixel.%.a: $$(call sources,icysixel) \
	$$(call proofs,icysixel) | out/libicysixel.a
	$(call report,building for $*,icysixel)
	$(start)
	@mv $(archive) $(begun).other
	$(call rt,$(crate),lib --jobs $(jobs) $($*))
	@mv $(archive) $@ && mv $(begun).other $(archive)
	$(end)

$(lastword $(archives_for_others)): | $(firstword $(archives_for_others))

# Debian's compiler for aarch64.
out/aarch64/%: override CC = aarch64-linux-gnu-gcc
out/aarch64/%: override AR = aarch64-linux-gnu-ar

