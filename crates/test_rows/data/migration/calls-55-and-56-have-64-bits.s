 # attach 1, 10
 li a0,1
 li a1,10
 li a7,7
 ecall
 li a0,1
 li a7,56
 ecall
 mv s2,a0
 # 2 to the 32, plus 55
 li a7,1
 slli a7,a7,32
 addi a7,a7,55
 li a0,1
 ecall
 mv s3,a0
 # 2 to the 63, plus 55
 li a7,1
 slli a7,a7,63
 addi a7,a7,55
 ecall
 mv s4,a0
 ebreak
