# `make` proves and builds the program, `make library` the library for C (`CPU=x86-64-v3`: for processors of that level),
# and `make CRATE` a library of crates.txt. `make install` and `make uninstall` put the program under PREFIX and take it
# away (`LIBRARY=yes`: with the library for C), for packages below DESTDIR; `make packages` makes packages of what is
# built, in dist/. `make check` tries the program as it is built, and `make gate` is all that a change has to pass.
# Crates that do not stand on each other are built at once, as many as the machine has room for.
SHELL := /bin/bash
MAKEFLAGS += -j$(shell tools/crate --at-once) --no-print-directory

PREFIX ?= /usr/local

comma := ,
split = $(subst $(comma), ,$1)
lines := $(shell tools/crate --lines)
crates := $(foreach line,$(lines),$(firstword $(call split,$(line))))

program:
	@./h3 --help </dev/null >/dev/null

library:
	@tools/library $(if $(CPU),--cpu $(CPU))

# (make's own variables are not for the makes that these call)
alone = env -u MAKEFLAGS -u MFLAGS -u MAKELEVEL

# (by the environment, so that a path may have any characters)
install uninstall: export DESTDIR := $(DESTDIR)
install uninstall: export PREFIX := $(PREFIX)

install:
	@$(alone) ./install $(if $(LIBRARY),--library) "$$PREFIX"

uninstall:
	@$(alone) ./install --uninstall "$$PREFIX"

packages:
	@$(alone) tools/packages

check:
	@$(alone) .ci/check

gate:
	@$(alone) .ci/run

# (what has no line of its own in crates.txt is a library of the toolchain)
define rule
$(firstword $1): $(filter $(crates),$(wordlist 2,$(words $1),$1))
	@tools/crate $(firstword $1)
endef
$(foreach line,$(lines),$(eval $(call rule,$(call split,$(line)))))

.PHONY: program library install uninstall packages check gate $(crates)
