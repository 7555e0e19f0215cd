 # spawn w, 0, 1
 la a0,w
 li a1,0
 li a2,1
 li a7,3
 ecall
 # attach 2, 10
 li a0,2
 li a1,10
 li a7,7
 ecall
 # migrate 1
 li a0,1
 li a7,55
 ecall
l: j l
w: li a0,2
 li a1,10
 li a7,7
 ecall
 li a7,32
 ecall
 nop
 # yield
 li a7,50
 ecall
v: j v
