 # new_timer
 li a7,13
 ecall
 # new_timer
 li a7,13
 ecall
 # spawn w, 1, 1
 la a0,w
 li a1,1
 li a2,1
 li a7,3
 ecall
 # spawn w, 0, 1
 la a0,w
 li a1,0
 li a2,1
 li a7,3
 ecall
 ebreak
w: mv s0,a0
 li a0,1
 li a1,20
 li a7,7
 ecall
 # timer_set s0, 2 - s0, 0
 mv a0,s0
 li a1,2
 sub a1,a1,s0
 li a2,0
 li a7,48
 ecall
 # timer_wait s0
 mv a0,s0
 li a7,49
 ecall
l: j l
