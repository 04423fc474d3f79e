# The lines of a simulator's log that say which ports of the crossbar do not fit a testbench of tools/testbench, in its words: `tb: ..` is an
# error, `note: ..` is none. Its Makefile calls it (sed -nE).
# Verilator: a port's width, and that of a member of a struct, which stands two lines below
s/^%Warning-WIDTH[A-Z]*: tb\.sv:[0-9:]+ [A-Z][a-z]+ port connection '([^']+)' expects ([0-9]+) bits.* generates ([0-9]+) bits.*/tb: the crossbar's port \1: it has \2 bits, and the testbench has \3 there (`extra` of its link)/p
/^%Warning-WIDTH[A-Z]*: tb\.sv:.* ASSIGNW? /{
N
N
s/.*[ .]([mp][0-9]+_(request|reply)\.[a-z_]+)[ ;].*/tb: the crossbar's struct \1: its width is not the testbench's (`extra` of its link)/p
}
# Icarus Verilog: the same
s/^tb\.sv:[0-9]+: warning: Port [0-9]+ \(([^)]+)\) of .* expects ([0-9]+) bits, got ([0-9]+)\.$/tb: the crossbar's port \1: it has \2 bits, and the testbench has \3 there (`extra` of its link)/p
# a port that is left open: signals of the links are an error
s/^%Warning-PINMISSING: tb\.sv:.*'(.*(corrupt|param))'$/tb: the crossbar's port \1: nothing is connected to it (--also a_corrupt,d_param)/p
s/^%Warning-PINMISSING: tb\.sv:.*'([^']+)'$/note: the crossbar's port \1: nothing is connected to it/p
s/^tb\.sv:[0-9]+: warning: Instantiating module .* with dangling input port [0-9]+ \((.*(corrupt|param))\) floating\.$/tb: the crossbar's port \1: nothing is connected to it (--also a_corrupt,d_param)/p
s/^tb\.sv:[0-9]+: warning: Instantiating module .* with dangling input port [0-9]+ \((.*)\) floating\.$/note: the crossbar's port \1: nothing is connected to it/p
