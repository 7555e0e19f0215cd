 # spawn a, 0, 0
 la a0,a
 li a1,0
 li a2,0
 li a7,3
 ecall
 # spawn b, 0, 0
 la a0,b
 li a1,0
 li a2,0
 li a7,3
 ecall
 # spawn c, 0, 0
 la a0,c
 li a1,0
 li a2,0
 li a7,3
 ecall
 # spawn d, 0, 0
 la a0,d
 li a1,0
 li a2,0
 li a7,3
 ecall
 # spawn e, 0, 0
 la a0,e
 li a1,0
 li a2,0
 li a7,3
 ecall
 # exit
 li a7,0
 ecall
a: # attach 1, 50
 li a0,1
 li a1,50
 li a7,7
 ecall
 # set mode 0
 li a0,0
 li a7,35
 ecall
here: j odd
 .word 0
odd: jalr x0,2(ra)
b: # attach 1, 40
 li a0,1
 li a1,40
 li a7,7
 ecall
 # set mode 2
 li a0,2
 li a7,35
 ecall
 jr zero
c: # attach 1, 30
 li a0,1
 li a1,30
 li a7,7
 ecall
 # set mode 0
 li a0,0
 li a7,35
 ecall
 .word 0
d: # attach 1, 20
 li a0,1
 li a1,20
 li a7,7
 ecall
 # set mode 2
 li a0,2
 li a7,35
 ecall
 ld a0,0(zero)
e: # attach 1, 10
 li a0,1
 li a1,10
 li a7,7
 ecall
 # set mode 0
 li a0,0
 li a7,35
 ecall
 lui s0,0x10002
 sd s0,24(s0)
