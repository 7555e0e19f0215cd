 li s0,1
 slli s0,s0,32
 # wait_line 64
 li a0,64
 li a7,6
 ecall
 mv s2,a0
 # wait_line s0
 mv a0,s0
 li a7,6
 ecall
 mv s3,a0
 # wait_line 63
 li a0,63
 li a7,6
 ecall
 mv s4,a0
 ebreak
