# a number that each instruction changes
 lui a0,0x80000
 addi a0,zero,-1
 slli a0,a0,63
 srai a0,a0,63
