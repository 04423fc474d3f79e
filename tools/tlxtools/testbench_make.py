"""The Makefile beside a testbench, for tools/testbench."""

MAKE = """\
# Made by tools/testbench from {system}, around the crossbar {top}.
# `make` builds and runs the testbench in Verilator, `make icarus` in Icarus Verilog. Either fails if the run is not lawful.
#
#   make SOURCES="../rtl/*.v" FLAGS="-I../rtl"     the files of the crossbar, and words that both simulators take
#   make SEED=2 REQUESTS=1000                      other requests, and how many each master sends
#   make PLUSARGS="+window=1 +dump=dump.vcd"       other plusargs of the parts (hdl/README.md)
#   make TLX_PREFIX=/opt/tlx                       where tools/install put the library, for the judge in the simulation
#   make MODEL=1                                   slaves whose memory is the library's model of the system
#   make JUDGE=                                    no judge in the simulation: monitors write a capture, and TLCHECK judges it
#   make LINKS=masters ORDER=any                   as --links and --order of tlcheck
#   make JOBS=1                                    how many processors compile
SYSTEM = {system}
HDL = {hdl}
SOURCES =
FLAGS =
SEED = 1
REQUESTS = 200
PLUSARGS =
LINKS = both
ORDER = accept
TLCHECK = {tlcheck}
ifneq ($(TLX_PREFIX),)
TLX_CFLAGS = -I$(TLX_PREFIX)/include
TLX_LIBS = -L$(TLX_PREFIX)/lib -ltlx
else
TLX_CFLAGS = $(shell pkg-config --cflags tlx 2>/dev/null)
TLX_LIBS = $(shell pkg-config --libs tlx 2>/dev/null)
endif
JUDGE = $(if $(strip $(TLX_LIBS)),1)
PARTS = tb.sv $(HDL)/tl_master.sv $(HDL)/tl_slave.sv
MODEL =
CALLED = $(HDL)/judge.c $(if $(MODEL),$(HDL)/slave.c)
ARGUMENTS = +seed=$(SEED) +random=$(REQUESTS) +images=$(dir $(SYSTEM)) $(PLUSARGS)
JOBS = $(shell nproc)
WORDS = --timing --top-module tb --timescale 1ns/1ns -Wno-fatal -Wno-lint
VERILATOR = verilator --binary -j $(JOBS) --output-split 5000 --trace $(WORDS)
LINT = verilator --lint-only $(WORDS) -Wwarn-WIDTH -Wwarn-PINMISSING
BUILD = >$(LOG) 2>&1 || {{ cat $(LOG); exit 1; }}
# What does not fit at the crossbar's ports, by the warnings of both simulators: a line for each such port, and no build. Ports of which the
# system file names bits may be wider than these.
BITS = {bits}
FIT = sed -nE -f $(HDL)/fit.sed $(LOG) | grep -vE ' ($(BITS)): ' | sort -u | tee $(LOG).fit; ! grep -q '^tb:' $(LOG).fit
# A line that begins with `tb:` says what went wrong besides the verdict.
SHOW = cat $@.log; ! grep -q '^tb:' $@.log || status=3
JUDGED = $(TLCHECK) --complete --links $(LINKS) --order $(ORDER) $(SYSTEM) $@.csv || status=$$?

verilator: $(if $(JUDGE),judge,monitors)

judge: obj_judge/Vtb
\t@$< $(ARGUMENTS) +system=$(SYSTEM) +links=$(LINKS) +order=$(ORDER) >$@.log; status=$$?; $(SHOW); exit $$status

monitors: obj_monitors/Vtb
\t@$< $(ARGUMENTS) +capture=$@.csv >$@.log; status=$$?; $(SHOW); $(JUDGED); exit $$status

icarus: tb.vvp
\t@vvp -n $< $(ARGUMENTS) +capture=$@.csv >$@.log; status=$$?; $(SHOW); $(JUDGED); exit $$status

obj_judge/Vtb obj_monitors/Vtb: LOG = $(@D).log
obj_judge/Vtb: $(PARTS) $(HDL)/tl_judge.sv $(CALLED) $(HDL)/system.h $(wildcard $(SOURCES)) words
\t@$(LINT) -DTL_JUDGE $(FLAGS) $(SOURCES) $(PARTS) $(HDL)/tl_judge.sv $(BUILD); $(FIT)
\t$(VERILATOR) -DTL_JUDGE $(if $(MODEL),-DTL_MODEL) -CFLAGS "$(TLX_CFLAGS)" -LDFLAGS "$(TLX_LIBS)" --Mdir obj_judge $(FLAGS) \\
\t  $(SOURCES) $(PARTS) $(HDL)/tl_judge.sv $(abspath $(CALLED)) $(BUILD)

obj_monitors/Vtb: $(PARTS) $(HDL)/tl_monitor.v $(wildcard $(SOURCES)) words
\t@$(LINT) $(FLAGS) $(SOURCES) $(PARTS) $(HDL)/tl_monitor.v $(BUILD); $(FIT)
\t$(VERILATOR) --Mdir obj_monitors $(FLAGS) $(SOURCES) $(PARTS) $(HDL)/tl_monitor.v $(BUILD)

tb.vvp: LOG = tb.log
tb.vvp: $(PARTS) $(HDL)/tl_monitor.v $(wildcard $(SOURCES)) words
\tiverilog -g2012 -s tb -Wportbind -o $@ $(FLAGS) $(SOURCES) $(PARTS) $(HDL)/tl_monitor.v $(BUILD); $(FIT)

# what a build depends on besides its files
words: FORCE
\t@echo '$(SOURCES) $(FLAGS) $(MODEL) $(TLX_CFLAGS) $(TLX_LIBS)' | cmp -s - $@ || echo '$(SOURCES) $(FLAGS) $(MODEL) $(TLX_CFLAGS) $(TLX_LIBS)' >$@
FORCE:

clean:
\trm -rf obj_judge obj_monitors tb.vvp words obj_judge.log* obj_monitors.log* tb.log* judge.log monitors.log icarus.log monitors.csv icarus.csv

.DELETE_ON_ERROR:
.PHONY: verilator judge monitors icarus clean FORCE
"""


def make_text(system, top, hdl, tlcheck, vectors):
    """The Makefile of a testbench of this system file around this crossbar, with the parts of the folder hdl. Vectors are the ports of which the
    system file names bits."""
    return MAKE.format(system=system, top=top, hdl=hdl, tlcheck=tlcheck, bits="|".join(vectors) or "-")
