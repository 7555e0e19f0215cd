 # new mutex 0
 li a0,0
 li a7,9
 ecall
 # attach 1, 10
 li a0,1
 li a1,10
 li a7,7
 ecall
 # set mode 3
 li a0,3
 li a7,35
 ecall
 # unlock 0
 li a0,0
 li a7,38
 ecall
 # putc 65
 li a0,65
 li a7,1
 ecall
 # set mode 0
 li a0,0
 li a7,35
 ecall
 mv s2,a0
 # unlock 0
 li a0,0
 li a7,38
 ecall
 mv s3,a0
 # putc 66
 li a0,66
 li a7,1
 ecall
 # lock 0, 0
 li a0,0
 li a1,0
 li a7,36
 ecall
 # lock 0, 0
 li a0,0
 li a1,0
 li a7,36
 ecall
 mv s4,a0
 ebreak
