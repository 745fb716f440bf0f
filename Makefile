# Proves, builds, tests and installs the programs and the library for C. `make help` lists what it makes.
# A crate is proved and built by tools/prove, whole, once the crates below it are, side by side if they do not depend on
# each other. tools/prove finds out by checksums whether it has to be, so make always calls it.
PROGRAMS := oidtool packtool
PREFIX ?= /usr/local
LIBDIR ?= $(PREFIX)/lib
# As many jobs as there are processors, and memory for: a crate may take 3 GB. But a -j of the caller's goes first: make sees to
# that among its own words, and this to one in the environment, where a make that calls this one leaves it.
MAKEFLAGS += --no-builtin-rules $(shell echo " $$MAKEFLAGS" | grep -qE ' -(-jobs|[a-z]*j)' || echo "-j$$(tools/jobs 3000 3000)")

# Each crate with its kind and those that it depends on, as NAME:KIND:LOW:LOW..
LISTED := $(shell tools/crates | tr ' ' :)
CRATES := $(foreach line,$(LISTED),$(firstword $(subst :, ,$(line))))

# named_CRATE: the libraries that it depends on; direct_CRATE: those of this repository; below CRATE: those that these depend
# on, too.
split = $(eval named_$(firstword $1) := $(wordlist 3,$(words $1),$1))
$(foreach line,$(LISTED),$(call split,$(subst :, ,$(line))))
$(foreach crate,$(CRATES),$(eval direct_$(crate) := $(filter $(CRATES),$(named_$(crate)))))
below = $(sort $(foreach low,$(direct_$1),$(low) $(call below,$(low))))

# The crates that the goals need, the lowest first.
goal_crates = $(or $(filter $1,$(PROGRAMS)),$(if $(filter lib install-lib,$1),gix_hash_c,$(PROGRAMS) $(if $(filter install dist,$1),gix_hash_c)))
NEEDED := $(foreach goal,$(or $(MAKECMDGOALS),all),$(call goal_crates,$(goal)))
export NEEDED := $(filter $(NEEDED) $(foreach crate,$(NEEDED),$(call below,$(crate))),$(CRATES))
# Those of them that were never built.
UNBUILT := $(filter-out $(patsubst crates/%/out/built,%,$(wildcard crates/*/out/built)),$(NEEDED))

.PHONY: all help lib test bench docs install install-lib uninstall dist clean always needs $(PROGRAMS)
.DELETE_ON_ERROR:

all: $(PROGRAMS)

help:
	@echo 'make: proves and builds both programs; make oidtool, make packtool: one of them'
	@echo 'make lib: proves and builds the library for C, out/libgix_hash.a and out/libgix_hash.so'
	@echo 'make test: runs all proofs, edits and tests'
	@echo 'make bench: measures the time and the instructions that the programs take'
	@echo 'make docs: writes the public items of each crate with their contracts into out/api'
	@echo 'make install PREFIX=/usr/local: installs programs, man pages, library and bindings'
	@echo 'make install-lib PREFIX=/usr/local: installs the library and its bindings alone, and proves no program'
	@echo 'make uninstall PREFIX=/usr/local: removes what was installed'
	@echo 'make dist: makes archives for users without the kit, in out/dist'
	@echo 'make clean: removes all that was built'
	@echo 'LIBDIR=DIR puts the library and the file for pkg-config into DIR instead of PREFIX/lib'
	@echo 'DESTDIR=DIR puts what is installed below DIR, to make a package of it'

$(PROGRAMS): %: crates/%/out/built

# If anything is missing, nothing is proved.
needs:
	@$(if $(UNBUILT),tools/needs make rt '$(CC)' python3)
	@$(if $(filter dist,$(MAKECMDGOALS)),tools/needs 'make dist' cargo dpkg-deb && tools/dist --ready)

# rules CRATE: what is proved before it, and how it is made.
define rules
crates/$1/out/built: always needs $(foreach low,$(direct_$1),crates/$(low)/out/built)
	@tools/prove $1 $(named_$1) -- $(call below,$1)
endef
$(foreach crate,$(CRATES),$(eval $(call rules,$(crate))))

# The library for C: what the crate gix_hash_c exports, by the version of the header.
VERSION := $(file < VERSION)
SONAME := libgix_hash.so.$(basename $(VERSION))
lib: out/libgix_hash.a out/$(SONAME)

out/libgix_hash.a: crates/gix_hash_c/out/built
	install -D -m 644 $(<D)/libgix_hash_c.a $@

out/libgix_hash.so: out/libgix_hash.a
	$(CC) $(LDFLAGS) -shared -Wl,-soname,$(SONAME) -Wl,-z,now -Wl,--no-undefined -o $@ -Wl,--whole-archive $< -Wl,--no-whole-archive

out/$(SONAME): out/libgix_hash.so
	ln -sf $(<F) $@

# (what calls make again has its own jobs and variables)
APART := env -u MAKEFLAGS -u MFLAGS -u MAKELEVEL
test:
	$(APART) ./test

bench: $(PROGRAMS)
	$(APART) tools/bench
	$(APART) tools/instructions $(foreach name,$(PROGRAMS),crates/$(name)/out/$(name))

docs:
	tools/promises

install: $(PROGRAMS) lib
	tools/install '$(DESTDIR)' '$(PREFIX)' '$(LIBDIR)'

install-lib: lib
	tools/install --lib '$(DESTDIR)' '$(PREFIX)' '$(LIBDIR)'

dist: needs $(PROGRAMS) lib
	tools/dist

uninstall:
	tools/install --remove '$(DESTDIR)' '$(PREFIX)' '$(LIBDIR)'

clean:
	rm -rf crates/*/out out
