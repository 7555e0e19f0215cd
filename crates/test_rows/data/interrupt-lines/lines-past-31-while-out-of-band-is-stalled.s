 # new_semaphore 0
 li a0,0
 li a7,10
 ecall
 # set_line 63, 1, 0
 li a0,63
 li a1,1
 li a2,0
 li a7,14
 ecall
 # attach 1, 10
 li a0,1
 li a1,10
 li a7,7
 ecall
 # stall
 li a7,51
 ecall
 nop
 nop
 # unstall
 li a7,52
 ecall
 # sem_tryget 0
 li a0,0
 li a7,40
 ecall
 mv s2,a0
l: j l
