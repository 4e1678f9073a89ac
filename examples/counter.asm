params 0
immed B0 0 0
immed B1 1 0
read sram 0 1 B0 0
alu S0 ADD L0 B1
write sram 0 1 B0 0
halt 0 0
