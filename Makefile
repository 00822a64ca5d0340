# The program is built by proving it: only a proved crate is built. `rt` is the command of the Rattle kit.
SRC ?= examples/one.rb
OUT ?= $(basename $(SRC)).mrb
STEPS ?=
CRATE ?=
PREFIX ?= /usr/local
RITE := build/rite
BELOW := $(addprefix crates/,$(shell scripts/crates.py below mrb_tool))
SOURCES := crates.txt HANDLES $(shell find $(addsuffix /src,$(BELOW)) -name '*.rt') \
	$(shell find $(wildcard $(addsuffix /specs,$(BELOW)) $(addsuffix /proofs,$(BELOW))) -name '*.antt')

.PHONY: run build install check test wrong-bodies pages

# Compiles SRC, writes its code to OUT and runs the file that was written.
run: $(RITE)
	@$(RITE) exec $(if $(STEPS),--steps $(STEPS)) $(SRC) $(OUT)

build: $(RITE)

# The first build proves every crate that the program stands on; later ones prove what changed and what stands on it.
$(RITE): $(SOURCES)
	@scripts/build

install: $(RITE)
	install -D $(RITE) $(DESTDIR)$(PREFIX)/bin/rite

# Checks the crate CRATE and those that stand on it, the lowest first, over what earlier checks kept.
check:
	@crates=$$(scripts/crates.py above $(CRATE)) && for crate in $$crates; do \
		echo "== $$crate"; (cd crates/$$crate && rt check) || exit 1; done

test:
	@rt ci

# Tries the wrong bodies that are not in the gate, all of them or those of the crate CRATE: each must be refused.
wrong-bodies:
	@scripts/wrong-bodies $(CRATE)

# Writes the tables that scripts make into docs/.
pages:
	@scripts/definitions --write
	@scripts/sizes --write
