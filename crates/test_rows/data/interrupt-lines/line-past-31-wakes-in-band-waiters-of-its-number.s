 # spawn w, 40, 1
 la a0,w
 li a1,40
 li a2,1
 li a7,3
 ecall
 # wait_line 8
 li a0,8
 li a7,6
 ecall
l: j l
w: li a7,6
 ecall
v: j v
