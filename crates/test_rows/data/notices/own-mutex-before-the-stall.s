 # new mutex 0
 li a0,0
 li a7,9
 ecall
 # new mutex 0
 li a0,0
 li a7,9
 ecall
 # spawn w, 0, 1
 la a0,w
 li a1,0
 li a2,1
 li a7,3
 ecall
 ebreak
 # attach 1, 10
 li a0,1
 li a1,10
 li a7,7
 ecall
 # set mode 2
 li a0,2
 li a7,35
 ecall
 # lock 0, 0
 li a0,0
 li a1,0
 li a7,36
 ecall
 # stall
 li a7,51
 ecall
 # lock 0, 0
 li a0,0
 li a1,0
 li a7,36
 ecall
 mv s2,a0
 # lock 1, 0
 li a0,1
 li a1,0
 li a7,36
 ecall
 mv s3,a0
 # lock 1, 7
 li a0,1
 li a1,7
 li a7,36
 ecall
 mv s4,a0
 # trylock 1
 li a0,1
 li a7,37
 ecall
 mv s5,a0
 # unlock 1
 li a0,1
 li a7,38
 ecall
 mv s6,a0
 ebreak
w: # attach 1, 20
 li a0,1
 li a1,20
 li a7,7
 ecall
 # lock 1, 0
 li a0,1
 li a1,0
 li a7,36
 ecall
 ebreak
