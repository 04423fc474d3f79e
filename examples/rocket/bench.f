--binary --trace --top-module tb -Wno-fatal -Wno-lint -Wno-style -o bench
-I.
tl_crossbar.v tl_adapters.v tl_slaves.v client.v soc.v testbench.v
