params 1
read sdram 0 2 A0 0
un A1 SHR 12 LD0
un A1 SHL 1 A1
read sram 0 2 A1 0
immed B0 4095 0
immed B1 1 0
alu A2 AND LD0 B0
alu B2 SUB A2 B1
immed B3 255 0
un A3 COPY B2
alu none AND A3 B3
br Z expired
alu SD0 OR L0 B2
un SD1 COPY LD1
write sdram 0 2 A0 0
un A0 COPY L1
halt 0 1
expired:
halt 1 0
