 # new_timer
 li a7,13
 ecall
 # spawn w, 0, 1
 la a0,w
 li a1,0
 li a2,1
 li a7,3
 ecall
 # attach 1, 10
 li a0,1
 li a1,10
 li a7,7
 ecall
 # timer_set 0, 1, 0
 li a0,0
 li a1,1
 li a2,0
 li a7,48
 ecall
l: j l
w: li a0,1
 li a1,20
 li a7,7
 ecall
 # timer_wait 0
 li a0,0
 li a7,49
 ecall
v: j v
