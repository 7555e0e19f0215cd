 # attach 1, 10
 li a0,1
 li a1,10
 li a7,7
 ecall
 # migrate 1: the call promotes it, and is made again
 li a0,1
 li a7,55
 ecall
