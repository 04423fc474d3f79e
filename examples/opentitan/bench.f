--binary --trace --trace-structs --top-module tb -Wno-fatal -Wno-lint -Wno-style -o bench
-I.
tl_pkg.sv tl_sockets.sv tl_fifo_async.sv tl_adapters.sv tl_devices.sv soc.sv host.sv testbench.sv
