 # attach 2, 7
 li a0,2
 li a1,7
 li a7,7
 ecall
 # switch oob
 li a7,32
 ecall
 lui s0,0x10002
 ld a1,24(s0)
