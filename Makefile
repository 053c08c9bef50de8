# make demo       builds the program and protects a real file in a fresh folder
# make test       proves everything from nothing, tries the must-fail edits, runs tests and programs
# make edits      shows that each function that a must-fail edit changes is refused by a goal of its own
# make bench      measures the kernels and whole commands, and writes the tables, pictures and pages that have figures;
#                 with BEFORE=PROGRAM also verifies and repairs beside that program
# make install    builds for this machine's processor, and puts the program, its page and its completions below PREFIX
# make uninstall  removes them
# make deb        builds a Debian package in out/
# make pictures   draws the pictures of docs/ again, from the tables and the map beside them
# make pages      writes the parts of the pages that commands print; make test compares them
#
# CPU=x86-64-v3 builds for machines that have AVX2, CPU=x86-64-v2 for all that have SSE 4.2: demo, bench and deb do that
# without the word, and install takes what this machine has. NAME=par2undo installs under another name, beside
# par2cmdline, whose program is called par2 too. DESTDIR stands before PREFIX.
# All need the command rt of the toolchain; install and uninstall need it only to build.
PREFIX ?= $(HOME)/.local
NAME = par2
CPU ?=
DEFAULT = x86-64-v2
export PREFIX NAME DESTDIR ZSH_FUNCTIONS BEFORE

.PHONY: build demo test edits bench install uninstall deb pictures pages

# Proves what the program stands on and builds it, unless it was built from the same sources.
build:
	sh tools/build.sh "$(or $(CPU),$(DEFAULT))"

demo: build
	sh tools/demo.sh "$(CURDIR)/crates/par2/out/par2$(filter-out %-$(DEFAULT),$(CPU:%=-%))"

test:
	sh tests/run.sh

edits: build
	python3 checks/wrong_bodies.py --together

bench:
	sh bench/run.sh "$(or $(CPU),$(DEFAULT))"

install:
	sh tools/install.sh "$(CPU)"

uninstall:
	sh tools/install.sh --remove

deb:
	sh tools/package.sh "$(or $(CPU),$(DEFAULT))" $(if $(filter command,$(firstword $(origin NAME))),"$(NAME)")

pictures:
	sh tools/pictures.sh

pages:
	sh tools/pages.sh --write
