 # attach 1, 10
 li a0,1
 li a1,10
 li a7,7
 ecall
 # new_timer
 li a7,13
 ecall
 # timer_set 0, 1, 0
 li a0,0
 li a1,1
 li a2,0
 li a7,48
 ecall
 # migrate 1
 li a0,1
 li a7,55
 ecall
 nop
 # timer_set 0, 1, 0
 li a0,0
 li a1,1
 li a7,48
 ecall
 nop
 # timer_wait 0
 li a0,0
 li a7,49
 ecall
l: j l
