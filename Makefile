# `make` proves the crates below the program and builds it, `make lib` does so with the library for C and Python, `make page` makes the
# page for a browser, `make c` the engine as one file in C, `make check` tries what is built, `make test` runs the gate and then that.
PREFIX ?= /usr/local
DESTDIR ?=
# where libraries stand; a distribution of several processors has a folder for each
LIBDIR ?= $(PREFIX)/lib
# where the system's Python looks for modules that are installed below PREFIX
PYTHONDIR ?= $(shell tools/python-folder "$(PREFIX)")
# what is installed was built there; `make arm` builds for Linux on ARM in build/aarch64
BUILD ?= build
# `make install LIBRARY=no` leaves out what needs a C compiler, binutils and Python 3 to be built.
LIBRARY ?= yes
# asked for only by `make dist`
VERSION = $(shell tools/version)
SONAME := libnissy.so.2
# What is built is proved first: if the kit isn't there, a build says so.
NEEDS_KIT = @command -v rt > /dev/null || { echo "no rt on the PATH: nissy is built by the Rattle kit that README.md names" >&2; exit 1; }

# What program and library are made of, without the crates that only test them or show the libraries' use.
SOURCES := HANDLES crates.txt $(shell find crates \( -name out -o -name niss_tests -o -name niss_call_tests -o -name eo_axes \) -prune \
	-o -type f \( -name '*.rt' -o -name '*.antt' \) -print)

# the page, if the tools are here that it needs besides the kit
THE_PAGE := $(and $(shell command -v wasm-opt),$(shell command -v tsc),build/nissy.html)

# Where a distribution looks for each file: below PREFIX, or, after `@lib` and `@python`, below LIBDIR and PYTHONDIR. A package is built with
# `make install DESTDIR=FOLDER PREFIX=/usr`: the files go below FOLDER, and PREFIX says where they will stand. `make uninstall` takes the
# same words.
LIBRARY_FILES := \
	$(BUILD)/libnissy.a:@lib/libnissy.a \
	$(BUILD)/$(SONAME):@lib/$(SONAME) \
	$(BUILD)/libnissy.so:@lib/libnissy.so \
	$(foreach file,$(notdir $(wildcard include/*.h include/*.hpp)),include/$(file):include/$(file)) \
	include/nissy.pc:@lib/pkgconfig/nissy.pc \
	packaging/cmake/nissy-config.cmake:@lib/cmake/nissy/nissy-config.cmake \
	packaging/cmake/nissy-config-version.cmake:@lib/cmake/nissy/nissy-config-version.cmake \
	$(foreach file,$(notdir $(wildcard python/nissy/*.py)) py.typed,python/nissy/$(file):@python/nissy/$(file)) \
	$(foreach file,$(notdir $(wildcard examples/*.py)),examples/$(file):share/doc/nissy/examples/$(file)) \
	docs/PYTHON.md:share/doc/nissy/PYTHON.md \
	docs/C.md:share/doc/nissy/C.md
LIBRARY_INSTALLED := $(if $(filter no,$(LIBRARY)),,$(LIBRARY_FILES))
INSTALLED := \
	$(BUILD)/nissy:bin/nissy \
	docs/nissy.1:share/man/man1/nissy.1 \
	docs/MANUAL.md:share/doc/nissy/MANUAL.md \
	docs/COOKBOOK.md:share/doc/nissy/COOKBOOK.md \
	docs/MANY.md:share/doc/nissy/MANY.md \
	docs/WORDS.md:share/doc/nissy/WORDS.md \
	$(foreach file,$(notdir $(wildcard docs/words/*.svg)),docs/words/$(file):share/doc/nissy/words/$(file)) \
	completions/nissy.bash:share/bash-completion/completions/nissy \
	completions/_nissy:share/zsh/site-functions/_nissy \
	completions/nissy.fish:share/fish/vendor_completions.d/nissy.fish \
	$(LIBRARY_INSTALLED)
# in a recipe: for each pair `from` and, with DESTDIR, `to`
EACH_INSTALLED = set -e; for pair in $(INSTALLED); do \
		from=$${pair%%:*}; name=$${pair\#*:}; \
		case $$name in \
			@lib/*) to="$(LIBDIR)/$${name\#*/}" ;; \
			@python/*) to="$(PYTHONDIR)/$${name\#*/}" ;; \
			*) to="$(PREFIX)/$$name" ;; \
		esac; \
		to="$(DESTDIR)$$to"

.PHONY: all lib page c arm check test install uninstall wheel npm deb sdist windows dist clean bench
# what a recipe left in part is no file that a later one takes
.DELETE_ON_ERROR:

all: build/nissy

lib: build/libnissy.a

page: build/nissy.html

arm: build/aarch64/nissy $(if $(LIBRARY_INSTALLED),build/aarch64/libnissy.a)

build/nissy: $(SOURCES) tools/program tools/targets.py tools/kit.py
	$(NEEDS_KIT)
	@echo "Proving and building. The first time this takes ten minutes or more."
	tools/program build/nissy

# the shared object comes with it, under both of its names
build/libnissy.a: $(SOURCES) tools/static-library tools/targets.py tools/kit.py
	$(NEEDS_KIT)
	tools/static-library niss_c build/libnissy.a $(SONAME)

# the same for Linux on ARM, each proved for that target
OF_ARM := $(SOURCES) tools/targets.py tools/kit.py $(wildcard packaging/aarch64/*.c)

build/aarch64/nissy: $(OF_ARM) tools/program
	$(NEEDS_KIT)
	tools/program build/aarch64/nissy aarch64

build/aarch64/libnissy.a: $(OF_ARM) tools/static-library
	$(NEEDS_KIT)
	tools/static-library niss_c build/aarch64/libnissy.a $(SONAME) aarch64

# the engine for pages, of which both the module and the C file are made
build/niss_page.a: $(SOURCES) tools/page-archive tools/kit.py
	$(NEEDS_KIT)
	tools/page-archive build/niss_page.a

build/nissy.wasm: build/niss_page.a tools/web-module
	tools/web-module build/niss_page.a build/nissy.wasm

build/nissy.c: build/niss_page.a include/nissy.h include/nissy_text.h tools/c-file $(wildcard tools/wasm_*.py) tools/c_calls.py $(wildcard portable/*.[ch])
	tools/c-file build/niss_page.a build/nissy.c

# one file, with the engine's module in it
build/nissy.html: build/nissy.wasm tools/page tools/web-scripts $(shell find web -type f)
	tools/web-scripts
	tools/page build/web/page build/nissy.wasm build/nissy.html

check: build/nissy $(if $(shell command -v wasm-opt),$(THE_PAGE) build/nissy.c) $(if $(filter no,$(LIBRARY)),,$(if $(shell command -v cc),build/libnissy.a))
	tests/run built

test:
	$(NEEDS_KIT)
	tests/run

install: $(BUILD)/nissy $(if $(LIBRARY_INSTALLED),$(BUILD)/libnissy.a)
	@$(EACH_INSTALLED); \
		case $$from in \
			*.so) ln -sf $(SONAME) "$$to" ;; \
			*.pc) install -D -m 644 "$$from" "$$to"; \
				sed -i "s|../../include|$$(realpath -ms --relative-to="$(LIBDIR)/pkgconfig" "$(PREFIX)/include")|" "$$to" ;; \
			$(BUILD)/*[!a]) install -D -m 755 "$$from" "$$to" ;; \
			*) install -D -m 644 "$$from" "$$to" ;; \
		esac; \
		echo "$$to"; \
	done

uninstall:
	@$(EACH_INSTALLED); rm -f "$$to"; done
	@# what Python keeps of the module that it read
	@rm -f $(foreach file,$(wildcard python/nissy/*.py),"$(DESTDIR)$(PYTHONDIR)"/nissy/__pycache__/$(notdir $(file:.py=)).*.pyc)
	@for folder in "$(PREFIX)/share/doc/nissy/examples" "$(PREFIX)/share/doc/nissy/words" "$(PREFIX)/share/doc/nissy" "$(LIBDIR)/cmake/nissy" "$(PYTHONDIR)/nissy/__pycache__" "$(PYTHONDIR)/nissy"; do \
		rmdir "$(DESTDIR)$$folder" 2> /dev/null || true; \
	done

# What goes to machines without the kit, in build/dist, the same bytes each time on one commit.
wheel: build/libnissy.a
	tools/wheel build

npm: build/nissy.wasm
	tools/npm-package build

deb: build/nissy build/libnissy.a
	tools/deb build

c: build/nissy.c
	tools/c-archive build

sdist: build/nissy.c
	tools/sdist build

windows: build/nissy.c
	tools/windows build

dist: build/nissy build/nissy.c $(if $(LIBRARY_INSTALLED),build/libnissy.a) $(THE_PAGE) \
		$(if $(shell command -v aarch64-linux-gnu-gcc),arm)
	tools/dist build/dist $(if $(LIBRARY_INSTALLED),,program)

bench: build/nissy
	bench/run

clean:
	rm -rf build crates/*/out
