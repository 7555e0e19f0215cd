 # spawn w, 0, 1
 la a0,w
 li a1,0
 li a2,1
 li a7,3
 ecall
 # new_mutex 2, 40
 li a0,2
 li a1,40
 li a7,9
 ecall
 # attach 1, 10
 li a0,1
 li a1,10
 li a7,7
 ecall
 # lock 0, 0
 li a0,0
 li a1,0
 li a7,36
 ecall
 # migrate 1
 li a0,1
 li a7,55
 ecall
 nop
 # unlock 0
 li a0,0
 li a7,38
 ecall
l: j l
w: li a0,1
 li a1,30
 li a7,7
 ecall
 li a7,32
 ecall
 nop
v: j v
