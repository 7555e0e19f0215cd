 # spawn w, 0, 1
 la a0,w
 li a1,0
 li a2,1
 li a7,3
 ecall
 # attach 1, 10
 li a0,1
 li a1,10
 li a7,7
 ecall
 # set_mode 2
 li a0,2
 li a7,35
 ecall
l: j l
w: li a0,1
 li a1,10
 li a7,7
 ecall
 li a7,32
 ecall
v: j v
