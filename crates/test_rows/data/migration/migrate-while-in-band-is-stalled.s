 # attach 1, 10
 li a0,1
 li a1,10
 li a7,7
 ecall
 # stall
 li a7,4
 ecall
 # migrate 1
 li a0,1
 li a7,55
 ecall
 # unstall
 li a7,5
 ecall
 # migrate 1
 li a0,1
 li a7,55
 ecall
l: j l
