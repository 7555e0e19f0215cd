 # new_mutex 0, twice
 li a0,0
 li a7,9
 ecall
 li a0,0
 li a7,9
 ecall
 # spawn w, 0, 1
 la a0,w
 li a1,0
 li a2,1
 li a7,3
 ecall
 # attach 1, 10
 li a0,1
 li a1,10
 li a7,7
 ecall
 # lock 0, 0
 li a0,0
 li a1,0
 li a7,36
 ecall
 ebreak
 # lock 1, 9
 li a0,1
 li a1,9
 li a7,36
 ecall
 mv s2,a0
 ebreak
w: li a0,1
 li a1,30
 li a7,7
 ecall
 # lock 1, 0
 li a0,1
 li a1,0
 li a7,36
 ecall
 # lock 0, 0
 li a0,0
 ecall
 ebreak
