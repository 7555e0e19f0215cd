 # set_line 0, 0, 0
 li a0,0
 li a1,0
 li a2,0
 li a7,14
 ecall
 mv s2,a0
 # set_line 1, 0, 0
 li a0,1
 li a1,0
 li a2,0
 li a7,14
 ecall
 mv s3,a0
 # set_line 2, 0, 0
 li a0,2
 li a1,0
 li a2,0
 li a7,14
 ecall
 mv s4,a0
 # set_line 63, 0, 0
 li a0,63
 li a1,0
 li a2,0
 li a7,14
 ecall
 mv s5,a0
 # set_line 64, 0, 0
 li a0,64
 li a1,0
 li a2,0
 li a7,14
 ecall
 mv s6,a0
 ebreak
