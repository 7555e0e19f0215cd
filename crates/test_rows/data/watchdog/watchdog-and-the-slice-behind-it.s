 # new_semaphore 0
 li a0,0
 li a7,10
 ecall
 # set_line 5, 1, 0
 li a0,5
 li a1,1
 li a2,0
 li a7,14
 ecall
 # spawn w, 0, 0
 la a0,w
 li a1,0
 li a2,0
 li a7,3
 ecall
 # yield
 li a7,2
 ecall
 # attach 2, 10
 li a0,2
 li a1,10
 li a7,7
 ecall
 # switch_oob, again and again
l: li a7,32
 ecall
 j l
w: li a0,2
 li a1,10
 li a7,7
 ecall
 # sem_get 0, 0
 li a0,0
 li a1,0
 li a7,39
 ecall
v: j v
