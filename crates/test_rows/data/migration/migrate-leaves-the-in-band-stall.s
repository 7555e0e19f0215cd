 # new_semaphore 0
 li a0,0
 li a7,10
 ecall
 # spawn w, 0, 0
 la a0,w
 li a1,0
 li a2,0
 li a7,3
 ecall
 # yield
 li a7,2
 ecall
 # stall, sem_put 0
 li a7,4
 ecall
 li a0,0
 li a7,41
 ecall
l: j l
w: li a0,1
 li a1,20
 li a7,7
 ecall
 # sem_get 0, 0
 li a0,0
 li a1,0
 li a7,39
 ecall
 nop
 # migrate 1
 li a0,1
 li a7,55
 ecall
v: j v
