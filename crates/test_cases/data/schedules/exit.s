 li a7,0
 ecall
