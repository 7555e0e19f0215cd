 # spawn w, 0, 1
 la a0,w
 li a1,0
 li a2,1
 li a7,3
 ecall
loop: j loop
w: lui s0,0x10001
 sd s0,0(s0)
 sd s0,0(s0)
 ebreak
