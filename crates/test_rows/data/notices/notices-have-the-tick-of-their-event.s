 # attach 1, 10
 li a0,1
 li a1,10
 li a7,7
 ecall
 # set mode 1
 li a0,1
 li a7,35
 ecall
loop: # putc 66
 li a0,66
 li a7,1
 ecall
 # switch oob
 li a7,32
 ecall
 nop
 j loop
