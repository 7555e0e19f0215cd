 # spawn a, 0, 0
 la a0,a
 li a1,0
 li a2,0
 li a7,3
 ecall
 # spawn b, 0, 0
 la a0,b
 li a1,0
 li a2,0
 li a7,3
 ecall
 # spawn c, 0, 0
 la a0,c
 li a1,0
 li a2,0
 li a7,3
 ecall
 # spawn d, 0, 0
 la a0,d
 li a1,0
 li a2,0
 li a7,3
 ecall
 # spawn e, 0, 0
 la a0,e
 li a1,0
 li a2,0
 li a7,3
 ecall
 # spawn f, 0, 0
 la a0,f
 li a1,0
 li a2,0
 li a7,3
 ecall
 # spawn g, 0, 0
 la a0,g
 li a1,0
 li a2,0
 li a7,3
 ecall
 # spawn h, 0, 0
 la a0,h
 li a1,0
 li a2,0
 li a7,3
 ecall
 # exit
 li a7,0
 ecall
a: lui s0,0x10000
 ld a0,120(s0)
b: lui s0,0x10000
 sd a0,120(s0)
c: lui s0,0x10000
 ld a0,124(s0)
d: lui s0,0x10000
 sd a0,127(s0)
e: lui s0,0x10000
 lb a0,127(s0)
f: lui s0,0x10000
 sw a0,124(s0)
g: lui s0,0x10000
 ld a0,128(s0)
h: lui s0,0x10000
 sd a0,128(s0)
