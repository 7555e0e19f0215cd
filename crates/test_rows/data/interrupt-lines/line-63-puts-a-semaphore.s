 # new_semaphore 0
 li a0,0
 li a7,10
 ecall
 # set_line 63, 1, 0
 li a0,63
 li a1,1
 li a2,0
 li a7,14
 ecall
 # spawn w, 0, 1
 la a0,w
 li a1,0
 li a2,1
 li a7,3
 ecall
l: j l
w: li a0,1
 li a1,20
 li a7,7
 ecall
 # sem_get 0, 0
 li a0,0
 li a1,0
 li a7,39
 ecall
v: j v
