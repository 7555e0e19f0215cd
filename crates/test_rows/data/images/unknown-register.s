nop
addi a9,a0,1
