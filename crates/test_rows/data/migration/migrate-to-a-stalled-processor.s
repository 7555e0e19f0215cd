 # spawn w, 0, 1
 la a0,w
 li a1,0
 li a2,1
 li a7,3
 ecall
 # attach 1, 20
 li a0,1
 li a1,20
 li a7,7
 ecall
 # migrate 1
 li a0,1
 li a7,55
 ecall
l: j l
w: li a0,1
 li a1,10
 li a7,7
 ecall
 # stall
 li a7,51
 ecall
 nop
 nop
 # unstall
 li a7,52
 ecall
v: j v
