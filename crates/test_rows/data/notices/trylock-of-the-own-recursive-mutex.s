 # new mutex 1
 li a0,1
 li a7,9
 ecall
 # attach 1, 10
 li a0,1
 li a1,10
 li a7,7
 ecall
 # set mode 3
 li a0,3
 li a7,35
 ecall
 # trylock 0
 li a0,0
 li a7,37
 ecall
 mv s2,a0
 # trylock 0
 li a0,0
 li a7,37
 ecall
 mv s3,a0
 # unlock 0
 li a0,0
 li a7,38
 ecall
 mv s4,a0
 # unlock 0
 li a0,0
 li a7,38
 ecall
 mv s5,a0
 # unlock 0
 li a0,0
 li a7,38
 ecall
 mv s6,a0
 ebreak
