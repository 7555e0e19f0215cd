# sleeps until tick 3
 li a7,7
 li a0,1
 li a1,10
 ecall
 li a7,47
 li a0,3
 ecall
 li a7,0
 ecall
