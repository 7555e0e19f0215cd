 # attach 3, 5
 li a0,3
 li a1,5
 li a7,7
 ecall
 # new_mutex 0, 0
 li a0,0
 li a7,9
 ecall
 # lock 0, 0
 li a0,0
 li a1,0
 li a7,36
 ecall
 # stall
 li a7,51
 ecall
 # migrate 1
 li a0,1
 li a7,55
 ecall
 # unlock 0
 li a0,0
 li a7,38
 ecall
l: j l
