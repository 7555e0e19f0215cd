 # spawn w, 0, 1
 la a0,w
 li a1,0
 li a2,1
 li a7,3
 ecall
 # attach 1, 10
 li a0,1
 li a1,10
 li a7,7
 ecall
 # switch_oob
 li a7,32
 ecall
l: j l
 # spawn v, 0, 0
w: la a0,v
 li a1,0
 li a2,0
 li a7,3
 ecall
u: j u
v: nop
 j v
