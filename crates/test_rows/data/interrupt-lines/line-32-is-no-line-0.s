 # attach 1, 10
 li a0,1
 li a1,10
 li a7,7
 ecall
 # sleep_until 1
 li a0,1
 li a7,47
 ecall
