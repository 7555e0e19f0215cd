 # new mutex 0
 li a0,0
 li a7,9
 ecall
 # attach 1, 10
 li a0,1
 li a1,10
 li a7,7
 ecall
 # set mode 2
 li a0,2
 li a7,35
 ecall
 # unlock 0
 li a0,0
 li a7,38
 ecall
 mv s2,a0
 # trylock 0
 li a0,0
 li a7,37
 ecall
 # unlock 0
 li a0,0
 li a7,38
 ecall
 mv s3,a0
 # unlock 0
 li a0,0
 li a7,38
 ecall
 mv s4,a0
 ebreak
