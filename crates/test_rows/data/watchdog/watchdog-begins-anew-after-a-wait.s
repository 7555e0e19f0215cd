 # new_semaphore 0
 li a0,0
 li a7,10
 ecall
 # set_line 5, 1, 0
 li a0,5
 li a1,1
 li a2,0
 li a7,14
 ecall
 # attach 1, 10, switch_oob
 li a0,1
 li a1,10
 li a7,7
 ecall
 li a7,32
 ecall
 # sem_get 0, 0
 li a0,0
 li a1,0
 li a7,39
 ecall
l: j l
