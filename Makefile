# make              builds the program to one file, which needs nothing of the toolchain: crates/bitstool/out/bitstool
# make run < FILE   writes the normal form of a file; make run ARGS="check" < FILE gives the program these arguments
# make lib          proves the C library and builds it: capi/out/libbitstream.a and libbitstream.so
# make install      puts the program, bitsame, their man page, completions and pages, the C library, its header, its pkg-config
#                   and CMake files, the Python module, the Rust crate and the examples below PREFIX
# make uninstall    removes what make install puts there, with the same PREFIX, LIBDIR and PYTHON_FOLDER
# make dist         packs what make install puts there into out/bitstool-VERSION-x86_64-linux.tar.gz, the same bytes on each
#                   run; OUT names another folder than out
# make wheel        makes a wheel there with the Python module, the C library, bitsum, bitsame and the program
# make deb          makes a Debian package there of what make install installs
# make bench        the program beside other tools; bench/tool says on which files
# make test         the gate: every proof from nothing, the edits that must be refused, the scripts of tests/, and bench/counts
# make test-program  builds the program, its tools and the C library, and runs the scripts of tests/ and bench/counts
PREFIX ?= /usr/local
# The pages of docs/ for users, which are installed. The others are for those who change the project.
PAGES := FORMAT RECIPES PROMISES COSTS
# Where the library goes, with its files for pkg-config and CMake; and, below PREFIX, the Python module.
LIBDIR ?= $(PREFIX)/lib
PYTHON_FOLDER ?= lib/python3/dist-packages
JOBS ?= $(shell nproc)
PROGRAM := crates/bitstool/out/bitstool
# Programs for tests/refused_memory and bench/counts.
TOOLS := refused_calls workloads
LIBRARIES := $(filter-out bit_c %_tests,$(patsubst crates/%/src/lib.rt,%,$(wildcard crates/*/src/lib.rt)))
sources = $(shell find crates/$(1) -path '*/out' -prune -o \( -name '*.rt' -o -name '*.antt' \) -print)
below = $(filter $(LIBRARIES),$(shell sed -n 's/^$(1)[^:]*://p' crates.txt))
# The version of the C library: of its calls, structures and numbers.
C_VERSION := $(shell sed -n 's/^\#define BS_VERSION //p' capi/bitstream.h)
HEAP := $(dir $(shell rt doc))c/liblibc_c.a
VERSION := $(shell sed -n 's/^const VERSION: &str = "\(.*\)";/\1/p' crates/bitstool/src/parse.rt)
DIST := bitstool-$(VERSION)-x86_64-linux
OUT ?= out
packed = $(abspath $(OUT))/$(DIST)

# A Python with setuptools and wheel.
WHEEL_PYTHON ?= $(firstword $(foreach it,python3 /usr/bin/python3,$(shell $(it) -c 'import setuptools, wheel' 2> /dev/null && echo $(it))))
wheel_folder = $(abspath $(OUT))/wheel

.PHONY: all libraries lib run install uninstall dist wheel deb bench test test-program
all: $(PROGRAM)

# Proved, built, and run once on its stored input.
$(PROGRAM): crates.txt $(foreach name,$(LIBRARIES) bitstool,$(call sources,$(name)))
	@echo "Proving and building: 10 to 30 minutes on 4 cores from nothing, and less after a change." >&2
	@$(MAKE) --no-print-directory -j2 libraries < /dev/null
	@echo "proving bitstool" >&2
	@mkdir -p crates/bitstool/out
	@cd crates/bitstool && rt run --jobs $(JOBS) < stdin 2> out/make.log | cmp - stdout || { cat out/make.log; exit 1; }
	@touch $(PROGRAM)
	@echo "built $(PROGRAM)" >&2

define tool
crates/$(1)/out/$(1): $(PROGRAM) $(call sources,$(1))
	@echo "proving $(1)" >&2
	@mkdir -p crates/$(1)/out
	@cd crates/$(1) && rt run --jobs $(JOBS) -- $$$$(cat args 2> /dev/null) < stdin 2> out/make.log | cmp - stdout || { cat out/make.log; exit 1; }
	@touch $$@
endef
$(foreach name,$(TOOLS),$(eval $(call tool,$(name))))

# Libraries that do not need each other are proved side by side.
libraries: $(LIBRARIES:%=crates/%/out/built)

define library
crates/$(1)/out/built: crates.txt $(call sources,$(1)) $(patsubst %,crates/%/out/built,$(call below,$(1)))
	@echo "proving $(1)" >&2
	@mkdir -p crates/$(1)/out
	@cd crates/$(1) && rt lib --jobs $(JOBS) > out/make.log 2>&1 || { cat out/make.log; exit 1; }
	@touch $$@
endef
$(foreach name,$(LIBRARIES) bit_c,$(eval $(call library,$(name))))

lib: capi/out/libbitstream.a capi/out/libbitstream.so

# One object: the crate's code, the calls that replace null pointers, and the kit's three functions of the heap, which call malloc,
# realloc and free. Only the names bs_* are global, so that it can be linked beside other libraries of Rattle's.
capi/out/libbitstream.a: crates/bit_c/out/built capi/null.py capi/bitstream.h
	@mkdir -p capi/out
	@rm -f capi/out/*
	@capi/null.py capi/bitstream.h capi/out/names > capi/out/null.c
	@cd capi/out && $(CC) -O2 -fPIC -I.. -c null.c && ar x $(HEAP) heap.pic.o \
	    && objcopy --redefine-syms=names ../../crates/bit_c/out/libbit_c.a proved.a \
	    && ld -r -o bitstream.o null.o heap.pic.o --whole-archive proved.a \
	    && objcopy --wildcard --keep-global-symbol='bs_*' bitstream.o && ar rcsD libbitstream.a bitstream.o
	@rm -f capi/out/*.o capi/out/proved.a
	@echo "built $@" >&2

capi/out/libbitstream.so: capi/out/libbitstream.a capi/bitstream.map capi/bitstream.h
	@$(CC) -shared -Wl,--whole-archive $< -Wl,--no-whole-archive -Wl,-soname,libbitstream.so.$(C_VERSION) -Wl,--version-script,capi/bitstream.map -Wl,-z,defs -o $@
	@ln -sf libbitstream.so $@.$(C_VERSION)
	@echo "built $@" >&2

run: $(PROGRAM)
	@$(PROGRAM) $(ARGS)

# The files of an installation, which `install` puts there and `uninstall` removes: some by their mode and folder, some with the
# changes of `changed` by their place, and links by their place.
define installation
	$(call $(1)_files,755,$(PREFIX)/bin,$(PROGRAM) contrib/bitsame contrib/bitsum)
	$(call $(1)_files,755,$(PREFIX)/share/bitstream/contrib,contrib/treemap)
	$(call $(1)_files,644,$(PREFIX)/share/man/man1,man/bitstool.1 man/bitsum.1)
	$(call $(1)_files,644,$(PREFIX)/share/man/man3,man/bitstream.3)
	$(call $(1)_link,bitstool.1,$(PREFIX)/share/man/man1/bitsame.1)
	$(call $(1)_files,644,$(PREFIX)/share/doc/bitstool,README.md CHANGELOG.md)
	$(call $(1)_files,644,$(PREFIX)/share/doc/bitstool/docs,$(PAGES:%=docs/%.md))
	$(call $(1)_changed,completions/bitstool.bash,$(PREFIX)/share/bash-completion/completions/bitstool)
	$(call $(1)_link,bitstool,$(PREFIX)/share/bash-completion/completions/bitsame)
	$(call $(1)_changed,completions/bitsum.bash,$(PREFIX)/share/bash-completion/completions/bitsum)
	$(call $(1)_files,644,$(PREFIX)/share/zsh/site-functions,completions/_bitstool completions/_bitsum)
	$(call $(1)_files,644,$(PREFIX)/share/fish/vendor_completions.d,completions/bitstool.fish completions/bitsum.fish)
	$(call $(1)_link,bitstool.fish,$(PREFIX)/share/fish/vendor_completions.d/bitsame.fish)
	$(call $(1)_files,644,$(PREFIX)/include,capi/bitstream.h)
	$(call $(1)_files,644,$(LIBDIR),capi/out/libbitstream.a)
	$(call $(1)_files,755,$(LIBDIR),capi/out/libbitstream.so.$(C_VERSION))
	$(call $(1)_link,libbitstream.so.$(C_VERSION),$(LIBDIR)/libbitstream.so)
	$(call $(1)_changed,capi/bitstreamConfig.cmake.in,$(LIBDIR)/cmake/bitstream/bitstreamConfig.cmake)
	$(call $(1)_changed,capi/bitstreamConfigVersion.cmake.in,$(LIBDIR)/cmake/bitstream/bitstreamConfigVersion.cmake)
	$(call $(1)_changed,capi/bitstream.pc.in,$(LIBDIR)/pkgconfig/bitstream.pc)
	$(call $(1)_files,644,$(module_folder),$(filter-out %/_library.py,$(wildcard capi/python/bitstream/*.py)) capi/python/bitstream/py.typed)
	$(call $(1)_changed,capi/python/bitstream/_library.py,$(module_folder)/_library.py)
	$(call $(1)_files,644,$(PREFIX)/share/bitstream/examples,$(wildcard capi/examples/*))
	$(call $(1)_files,644,$(PREFIX)/share/bitstream/rust,capi/rust/Cargo.toml)
	$(call $(1)_changed,capi/rust/build.rs,$(PREFIX)/share/bitstream/rust/build.rs)
	$(call $(1)_files,644,$(PREFIX)/share/bitstream/rust/src,$(wildcard capi/rust/src/*.rs))
endef
module_folder = $(PREFIX)/$(PYTHON_FOLDER)/bitstream
install_files = install -D -m $(1) -t $(DESTDIR)$(2) $(3)
install_link = ln -sf $(1) $(DESTDIR)$(2)
install_changed = install -D -m 644 $(1) $(DESTDIR)$(2) && sed -i $(changed) $(DESTDIR)$(2)
# The version, and where PREFIX and LIBDIR are from the folder of the file.
changed = -e 's|@VERSION@|$(C_VERSION)|; s|@PREFIX@|$(call way,$(2),$(PREFIX)/)|' \
    -e 's|"\.\."\(, "\.\."\)*|"$(call way,$(2),$(LIBDIR))"|; s|"\.\./\.\./\.\./lib"|"$(call way,$(2),$(LIBDIR))"|'
way = $(shell realpath -ms --relative-to=$(dir $(1)) $(2))
uninstall_files = rm -f $(addprefix $(DESTDIR)$(2)/,$(notdir $(3)))
uninstall_link = rm -f $(DESTDIR)$(2)
uninstall_changed = $(uninstall_link)

install: $(PROGRAM) lib
	$(call installation,install)
	@[ "$(DESTDIR)" ] || python3 -c 'import sys; at = "$(abspath $(PREFIX)/$(PYTHON_FOLDER))"; \
	    at in sys.path or print("for Python: export PYTHONPATH=" + at)'

# Folders that others use too stay.
uninstall:
	$(call installation,uninstall)
	@rm -rf $(DESTDIR)$(module_folder)/__pycache__
	@find $(addprefix $(DESTDIR),$(PREFIX)/share/bitstream $(PREFIX)/share/doc/bitstool $(LIBDIR)/cmake/bitstream $(module_folder)) \
	    -type d -empty -delete 2> /dev/null || :

# Sorted names, one time, one owner: the same bytes on each run.
dist: $(PROGRAM) lib
	@rm -rf $(packed)
	@$(MAKE) --no-print-directory -s -o $(PROGRAM) install DESTDIR=$(packed) PREFIX= LIBDIR=/lib
	@echo "x86-64-v2 Linux, glibc $$(objdump -T $(packed)/bin/bitstool $(packed)/lib/*.so | grep -o 'GLIBC_[0-9.]*' | sort -V \
	    | sed -n 's/GLIBC_//; $$p') or later" > $(packed)/NEEDS
	@cd $(packed) && find * -type f ! -name SHA256SUMS | LC_ALL=C sort | xargs sha256sum > SHA256SUMS
	@cd $(packed)/.. && tar --sort=name --mtime=@0 --owner=0 --group=0 --numeric-owner --mode=u=rwX,go=rX --format=ustar -cf - $(DIST) \
	    | gzip -n -9 > $(DIST).tar.gz
	@rm -rf $(packed)
	@echo "packed $(packed).tar.gz" >&2

# By setuptools, with one time for all files: the same bytes on each run.
wheel: $(PROGRAM) lib
	@[ "$(WHEEL_PYTHON)" ] || { echo "make wheel needs a Python with setuptools and wheel; WHEEL_PYTHON names it" >&2; exit 1; }
	@rm -rf $(wheel_folder)
	@install -D -m 644 -t $(wheel_folder) packaging/wheel/* README.md
	@install -D -m 644 -t $(wheel_folder)/bitstream capi/python/bitstream/*.py capi/python/bitstream/py.typed
	@for name in bitsum bitsame; do install -m 644 contrib/$$name $(wheel_folder)/bitstream/$$name.py; done
	@install -m 755 $(PROGRAM) $(wheel_folder)/bitstream/bitstool
	@install -m 755 capi/out/libbitstream.so $(wheel_folder)/bitstream/libbitstream.so.$(C_VERSION)
	@cd $(wheel_folder) && umask 022 && SOURCE_DATE_EPOCH=315532800 $(WHEEL_PYTHON) -B \
	    -c 'import setuptools.build_meta as it; print(it.build_wheel(".."))' > log 2>&1 || { cat log >&2; exit 1; }
	@echo "packed $(abspath $(OUT))/$$(tail -n 1 $(wheel_folder)/log)" >&2
	@rm -rf $(wheel_folder)

deb: $(PROGRAM) lib
	@rm -rf $(abspath $(OUT))/deb
	@$(MAKE) --no-print-directory -s -o $(PROGRAM) install DESTDIR=$(abspath $(OUT))/deb PREFIX=/usr LIBDIR=/usr/lib/x86_64-linux-gnu
	@packaging/debian/build $(VERSION) $(abspath $(OUT))/deb $(abspath $(OUT))/bitstool_$(VERSION)_amd64.deb
	@rm -rf $(abspath $(OUT))/deb
	@echo "packed $(abspath $(OUT))/bitstool_$(VERSION)_amd64.deb" >&2

bench: $(PROGRAM)
	bench/tool

# The gate stores the program that it proved and built as $(PROGRAM).
test:
	@tests/run --gate

test-program: $(PROGRAM) $(foreach name,$(TOOLS),crates/$(name)/out/$(name)) lib
	@tests/run
