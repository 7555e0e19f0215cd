 # attach 1, 10
 li a0,1
 li a1,10
 li a7,7
 ecall
l: li a7,32
 ecall
 j l
