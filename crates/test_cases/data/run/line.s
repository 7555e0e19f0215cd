# waits for line 5 twice
 li a7,6
 li a0,5
 ecall
 li a0,5
 ecall
 li a7,0
 ecall
