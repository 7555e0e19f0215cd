 # attach 1, 10
 li a0,1
 li a1,10
 li a7,7
 ecall
 # set mode 3
 li a0,3
 li a7,35
 ecall
 # switch inband
 li a7,33
 ecall
 # putc 65
 li a0,65
 li a7,1
 ecall
 # switch oob
 li a7,32
 ecall
 # putc 66
 li a0,66
 li a7,1
 ecall
 ebreak
