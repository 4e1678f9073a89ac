params 2
immed B0 0 0
immed B1 3 0
immed B2 1 0
next:
un none COPY A1
br Z missing
read sram 0 3 B0 0
alu A2 AND A0 L1
alu none XOR A2 L0
br Z found
un A3 COPY B0
alu B0 ADD A3 B1
alu A1 SUB A1 B2
br ALWAYS next
found:
un A0 COPY L2
halt 0 1
missing:
halt 1 1
