# The library for C: what is made of its archive, and what is installed with the program.
#
# A Makefile that includes this has set `program` and `archive`, and in `others` the processors
# besides this one.

crate = crates/icysixel
header = $(crate)/include/icysixel.h
hooks = $(crate)/memory/icysixel_memory.c
map = $(crate)/icysixel.map
# The shared library has a folder of its own, so that `-L out -licysixel` links the archive.
shared = out/shared/libicysixel.so
# The header has the version, and the map the number of the soname.
version = $(shell sed -n 's/^.define ICYSIXEL_VERSION "\(.*\)"/\1/p' $(header))
soname = libicysixel.so.$(shell sed -n 's/^ICYSIXEL_\([0-9]*\) {/\1/p' $(map))

# What is installed below PREFIX: mode, source and place of each file, links to the library, and
# files that describe it, which are made of templates.
prefix = $(or $(PREFIX),/usr/local)
libdir = $(or $(LIBDIR),lib)
installed = $(DESTDIR)$(prefix)
program_files = 755:$(program):bin/sixel 644:man/sixel.1:share/man/man1/sixel.1
library_files = 644:out/libicysixel.a:$(libdir)/libicysixel.a 644:out/icysixel.h:include/icysixel.h \
	755:$(shared):$(libdir)/libicysixel.so.$(version) 644:out/icysixel.3:share/man/man3/icysixel.3 \
	$(foreach path,LICENSE-MIT LICENSE-APACHE $(wildcard examples/*.c examples/python/*),\
		644:$(path):share/doc/icysixel/$(path))
links = $(libdir)/$(soname) $(libdir)/libicysixel.so
described = $(addprefix $(libdir)/,pkgconfig/icysixel.pc cmake/icysixel/icysixelConfig.cmake \
	cmake/icysixel/icysixelConfigVersion.cmake)

lib: out/libicysixel.a $(shared) out/icysixel.h out/icysixel.pc out/icysixel.3

install: install-program install-lib

install-program: program
	$(call copy,$(program_files))

install-lib: lib
	$(call copy,$(library_files))
	$(foreach link,$(links),ln -sf libicysixel.so.$(version) "$(installed)/$(link)" &&) :
	$(foreach file,$(described),$(description))

uninstall:
	rm -f $(foreach file,$(program_files) $(library_files),"$(installed)/$(call part,3)")
	rm -f $(foreach file,$(links) $(described),"$(installed)/$(file)")
	rm -rf "$(installed)/share/doc/icysixel" "$(installed)/$(libdir)/cmake/icysixel"

.PHONY: lib install install-program install-lib uninstall

# Reports in one line what to do.
stop = { echo '$1' >&2; exit 3; }
has = command -v $1 >/dev/null || $(call stop,$1 is missing: $2)

# A part of the description of a file.
part = $(word $1,$(subst :, ,$(file)))

# Installs files of these descriptions.
define copied
install -D -m $(call part,1) $(call part,2) "$(installed)/$(call part,3)"

endef
copy = $(foreach file,$1,$(copied))

# Fills in a template, of a library in this prefix with these folders below it.
describe = sed 's|@prefix@|$2|; s|@lib@|$3|; s|@include@|$4|; s|@version@|$(version)|' $(crate)/$1.in
define description
mkdir -p "$(installed)/$(dir $(file))"
$(call describe,$(notdir $(file)),$(prefix),/$(libdir),/include) >"$(installed)/$(file)"

endef

# Runs the compiler for C.
cc = $(call has,$(firstword $(CC)),install a C compiler or set CC); \
	$(CC) -std=c11 -O2 -fPIC $(CFLAGS)

.DELETE_ON_ERROR:

.SECONDEXPANSION:

out/icysixel_memory.o $(others:%=out/%/icysixel_memory.o): $(hooks)
	mkdir -p $(@D)
	$(cc) -c $(hooks) -o $@

out/libicysixel.a: $(archive)
$(others:%=out/%/libicysixel.a): out/%/libicysixel.a: $(crate)/out/libicysixel.%.a
out/libicysixel.a $(others:%=out/%/libicysixel.a): $$(@D)/icysixel_memory.o
	cp $(filter %.a,$^) $@
	$(AR) rs $@ $(@D)/icysixel_memory.o

# The map lets only the calls of the header out.
%/shared/libicysixel.so: %/libicysixel.a $(map)
	mkdir -p $(@D)
	$(cc) $(LDFLAGS) -shared -Wl,-soname,$(soname) -Wl,--version-script,$(map) \
		-Wl,-z,noexecstack,-z,relro,-z,now,-z,defs \
		-Wl,--whole-archive,$<,--no-whole-archive -o $@

out/icysixel.h: $(header)
	install -D -m 644 $(header) $@

# The source of a release has the manual page, so that nothing is needed to make it.
page = $(wildcard man/icysixel.3)
out/icysixel.3: $(header) $(or $(page),scripts/manual)
	mkdir -p out
	$(if $(page),cat $(page),scripts/manual $(header)) >$@

# In out/, icysixel.pc names its own folder.
out/icysixel.pc: $(header) $(crate)/icysixel.pc.in
	mkdir -p out
	$(call describe,icysixel.pc,$${pcfiledir}) >$@
