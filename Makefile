# `make` proves every crate, builds the library, its header and both programs into target/, and shows the main job; `make check` is
# the quick check of an edit; `make test` is the gate; `make bench` puts the library beside plain C; `make dist` packs archive,
# header and documents into one tar file, for those who have no toolchain; `make fmt` lays out the files of every crate.
.PHONY: all library fmt pages check test bench dist clean always
archive = target/staticlib/libdds.a
lister = target/bin/lister
explainer = target/bin/explainer

# all that rt reads, folders too, so that a file that went counts; neither the edits that must be refused nor what rt keeps in out/
# is part of what is built
sources := $(shell find crates -mindepth 2 \( -name must-fail -o -name out \) -prune -o -print) crates.txt

# how many crates are proved side by side: one a processor, while each has 3 GB of memory
side_by_side := $(shell n=$$(nproc); m=$$(awk '/^MemAvailable/ { print int($$2 / 3000000) }' /proc/meminfo); \
    echo $$((m < 1 ? 1 : m < n ? m : n)))

all: library
	@echo
	examples/run $(archive)

library: $(lister) $(explainer) $(archive) target/dds.h

# what was built by another toolchain is built again
toolchain := $(shell rt version)
ifneq ($(toolchain),$(shell cat target/toolchain 2>/dev/null))
target/proved: always
endif

# every crate, the lowest first; of a crate that has not changed the proofs of before hold
target/proved: $(sources)
	tests/notes check rt all check --jobs $(side_by_side)
	@mkdir -p target
	@echo '$(toolchain)' >target/toolchain
	@touch $@

$(archive): target/proved
	tests/build dds $@

$(lister): target/proved
	tests/build lister $@

$(explainer): target/proved
	tests/build explainer $@

target/dds.h: include/dds.h
	@mkdir -p target
	cp include/dds.h $@

# rt ci refuses a file that is not laid out
fmt:
	@for crate in crates/*/; do (cd "$$crate" && rt fmt) || exit 1; done

pages:
	tests/edits check
	tests/names

check: pages library
	tests/symbols $(archive)
	tests/costs $(archive)
	tests/lister/run $(lister)
	tests/explainer/run $(explainer)
	tests/run $(archive) plain

test:
	tests/gate

bench: library
	bench/run $(archive)

# The same files give the same tar file: names in order, owner, time and mode set.
version := $(shell sed -nE 's/^\#define DDS_VERSION +"?([0-9][0-9-]*).*/\1/p' include/dds.h)
package := dds$(version:%=-%)
dist: library
	@rm -rf target/dist
	@mkdir -p target/dist/$(package)/include target/dist/$(package)/docs/changes target/dist/$(package)/examples
	@cp $(archive) README.md target/dist/$(package)/
	@cp include/dds.h target/dist/$(package)/include/
	@cp docs/*.md target/dist/$(package)/docs/
	@cp docs/changes/*.md target/dist/$(package)/docs/changes/
	@cp examples/*.c target/dist/$(package)/examples/
	@cd target/dist/$(package) && find * -type f | LC_ALL=C sort | xargs sha256sum >../SHA256SUMS && mv ../SHA256SUMS .
	@cd target/dist && LC_ALL=C tar --sort=name --owner=0 --group=0 --numeric-owner --mtime=@0 --mode=u=rwX,go=rX --format=ustar \
	    -cf $(package).tar $(package)
	@sha256sum target/dist/$(package).tar

clean:
	rm -rf target
