 # attach 1, 10
 li a0,1
 li a1,10
 li a7,7
 ecall
 li a7,55
 # migrate 8
 li a0,8
 ecall
 mv s2,a0
 # migrate 2 to the 32
 li a0,1
 slli a0,a0,32
 ecall
 mv s3,a0
 # migrate 2 to the 63
 li a0,1
 slli a0,a0,63
 ecall
 mv s4,a0
 # migrate -1
 li a0,-1
 ecall
 mv s5,a0
 ebreak
