# Two commands: `make demo` does the main job, `make test` is the whole gate.
.PHONY: help demo play thirteen keys hut shelf rename pec firmware test bench install uninstall clean

help:
	@echo 'make demo              plays captures/class.capture, a recorded visit to the bus'
	@echo 'make play CAPTURE=file plays another capture'
	@echo 'make thirteen          plays captures/thirteen.capture to a thirteen-cell pack; CAPTURE=file plays another'
	@echo 'make keys              two packs that a dash makes one, and their two keys'
	@echo 'make hut               five minutes of a pack in a hut, and what it broadcasts'
	@echo "make shelf TABLE=file  Monday's figures of a table of packs; with no file, of examples/shelf/monday.txt"
	@echo 'make rename SHEET=file TAG=20 NAME=name  a name of the sheet in a file set; with no NAME, removed'
	@echo 'make pec BYTES="16 02" the check byte of a message; with no bytes, the worked examples'
	@echo 'make firmware          two days of a C firmware over the proved library, and their plot'
	@echo 'make test              the whole gate: every proof, every must-fail edit, every test'
	@echo 'make bench             instruction counts beside the same code in C (not part of the gate)'
	@echo 'make install           library, header and pkg-config file under PREFIX=/usr/local'
	@echo 'make uninstall         takes them away'

CAPTURE ?= captures/class.capture

demo play: target/bin/player
	@tools/run target/bin/player <$(CAPTURE)

thirteen: CAPTURE = captures/thirteen.capture
thirteen: target/bin/thirteen_player
	@tools/run target/bin/thirteen_player <$(CAPTURE)

keys: target/bin/key_demo
	@tools/run target/bin/key_demo

hut: target/bin/hut
	@tools/run target/bin/hut

TABLE ?= examples/shelf/monday.txt

shelf: target/bin/monday
	@tools/run target/bin/monday <$(TABLE)

pec: target/bin/pec_demo
	@tools/run target/bin/pec_demo $(BYTES)

# A program is proved before it is built; what rt says is shown only where it fails.
target/bin/%: FORCE
	@tools/program $*

FORCE:

test:
	@tools/gate

firmware:
	@examples/firmware/run

# A name reaches the program as it is, a $ and all.
ifneq ($(origin NAME),undefined)
override NAME := $(value NAME)
export NAME
endif
export SHEET TAG

rename:
	@examples/rename/run $${SHEET:+"$$SHEET" "$$TAG"} $${NAME+"$$NAME"}

bench:
	@bench/run

PREFIX ?= /usr/local

install:
	@tools/install "$(PREFIX)"

uninstall:
	@tools/install remove "$(PREFIX)"

clean:
	rm -rf target
