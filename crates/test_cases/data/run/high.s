# waits for line 63
 li a7,6
 li a0,63
 ecall
 li a7,0
 ecall
