# rncv: build, test, install. The repository's own scripts do the work; GNU make calls them.
#
#   make            prove and build the program, the library and the programs for XML; this wants the toolchain (README.md). KEEP=1 keeps the libraries
#                   that the proofs built, some gigabytes in build/proved
#   make try        build the same without proofs, in minutes, below build/unproved, and judge an example; OPT is the optimisation, else -O2
#   make test       all proofs and tests (.ci/run)
#   make install    install what `make` built, or else what `make try` built; this builds nothing. It uses PREFIX (else /usr/local) and DESTDIR
#   make uninstall  remove what `make install` with the same PREFIX and DESTDIR installed
#   make site       the pages as HTML with search, below build/site; this wants mkdocs
#   make dist       build/package/rncv-VERSION.tar.gz, the sources of the last commit, without the network
#   make deb        build/package/rncv_VERSION_ARCHITECTURE.deb, of what is built, without the network
#   make wheel      build/package/rncv-VERSION-py3-none-PLATFORM.whl, the Python package with the built libraries, without the network
#
# docs/use/INSTALL.md says what is installed where.

# Each of these is taken from the command line, else from the environment: packagers write `DESTDIR=/stage make install`.
PREFIX ?= /usr/local
DESTDIR ?=
OPT ?= -O2
# Where things are built.
PROGRAM ?= crates/rncv/out/rncv
LIBRARY ?= build/library
XML_PROGRAMS ?= build/xml

# Commands see these by their environment, so that blanks in them need no care.
export DESTDIR PROGRAM LIBRARY XML_PROGRAMS
install uninstall: export PREFIX := $(PREFIX)
try: export OPT := $(OPT)

.PHONY: all build try test install uninstall site dist deb wheel clean
all: build

build:
	programs/prove.py rncv rncv_c
	crates/rncv/out/rncv valid examples/first/s.rnc < examples/first/document.pyx
	RNCV_PROVED=build/proved PREFIX= programs/library/build.sh "$$LIBRARY"
	PREFIX= RNCV_LIBRARY= programs/xml/library.sh "$$LIBRARY"
	RNCV_LIBRARY="$$LIBRARY" programs/xml/build.sh "$$XML_PROGRAMS"
	[ -n "$(KEEP)" ] || rm -rf build/proved/crates build/proved/library-checked

try:
	dev/setup.sh
	programs/library/unproved.sh build/unproved
	PREFIX= RNCV_ARCHIVE=build/unproved/librncv_c.a programs/library/build.sh build/unproved/library
	PREFIX= RNCV_LIBRARY= programs/xml/library.sh build/unproved/library
	RNCV_LIBRARY=build/unproved/library programs/xml/build.sh build/unproved/xml
	build/unproved/rncv valid examples/letter/s.rnc < examples/letter/document.pyx
	build/unproved/xml/rncv-xml --all examples/letter/s.rnc examples/letter/letter.xml
	build/unproved/xml/rncv-xml --version

# PREFIX of the environment is for `make install`; what tests build names the folder where it is
test:
	PREFIX= .ci/run

install:
	@programs/packaging/install.sh install

uninstall:
	@programs/packaging/install.sh uninstall

site:
	@programs/site/build.sh

dist:
	@programs/packaging/dist.sh
	@programs/packaging/sums.sh

deb:
	@programs/packaging/deb.sh
	@programs/packaging/sums.sh

wheel:
	@programs/packaging/wheel.py
	@programs/packaging/sums.sh

clean:
	rm -rf build
