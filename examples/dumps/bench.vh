// What each bench of this folder has: a clock, a reset that it begins with, a capture, a dump, and an end.
reg clk = 0, reset = 1;
always #5 clk = !clk;
integer file;
reg [8*256-1:0] capture, dump;
initial begin
  if (!$value$plusargs("capture=%s", capture)) capture = "capture.csv";
  if (!$value$plusargs("dump=%s", dump)) dump = "dump.vcd";
  file = $fopen(capture);
  $fwrite(file, "time,link,channel,opcode,param,size,source,address,mask,data,denied,corrupt\n");
  $dumpfile(dump);
  $dumpvars(0, tb);
  #22 reset = 0;
  #10000 $fclose(file);
  $finish;
end
