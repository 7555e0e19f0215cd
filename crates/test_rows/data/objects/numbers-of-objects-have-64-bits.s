 # new_semaphore 1
 li a0,1
 li a7,10
 ecall
 # new_event
 li a7,11
 ecall
 # new_flags
 li a7,12
 ecall
 # new_timer
 li a7,13
 ecall
 # new_mutex 0, 0
 li a0,0
 li a1,0
 li a7,9
 ecall
 # attach 1, 10
 li a0,1
 li a1,10
 li a7,7
 ecall
 # lock 0, 0
 li a0,0
 li a1,0
 li a7,36
 ecall
 # flags_post 0, 1
 li a0,0
 li a1,1
 li a7,46
 ecall
 # sem_get 2^32, 0
 li a0,1
 slli a0,a0,32
 li a1,0
 li a7,39
 ecall
 mv s2,a0
 # sem_tryget 2^32
 li a0,1
 slli a0,a0,32
 li a7,40
 ecall
 mv s3,a0
 # sem_put 2^32
 li a0,1
 slli a0,a0,32
 li a7,41
 ecall
 mv s4,a0
 # event_wait 2^32, 0, 0
 li a0,1
 slli a0,a0,32
 li a1,0
 li a2,0
 li a7,42
 ecall
 mv s5,a0
 # event_wait 0, 2^32, 0
 li a0,0
 li a1,1
 slli a1,a1,32
 li a2,0
 li a7,42
 ecall
 mv s6,a0
 # signal 2^32
 li a0,1
 slli a0,a0,32
 li a7,43
 ecall
 mv s7,a0
 # broadcast 2^32
 li a0,1
 slli a0,a0,32
 li a7,44
 ecall
 mv s8,a0
 # flags_wait 2^32, 0
 li a0,1
 slli a0,a0,32
 li a1,0
 li a7,45
 ecall
 mv s9,a0
 # flags_post 2^32, 1
 li a0,1
 slli a0,a0,32
 li a1,1
 li a7,46
 ecall
 mv s10,a0
 # timer_set 2^32, 0, 0
 li a0,1
 slli a0,a0,32
 li a1,0
 li a2,0
 li a7,48
 ecall
 mv s11,a0
 # timer_wait 2^32
 li a0,1
 slli a0,a0,32
 li a7,49
 ecall
 mv t3,a0
 # flags_post 0, 2^32+1
 li a0,0
 li a1,1
 slli a1,a1,32
 addi a1,a1,1
 li a7,46
 ecall
 mv t4,a0
 # timer_set 0, 2^63, 0
 li a0,0
 li a1,1
 slli a1,a1,63
 li a2,0
 li a7,48
 ecall
 mv t5,a0
 # timer_set 0, 0, 2^63
 li a0,0
 li a1,0
 li a2,1
 slli a2,a2,63
 li a7,48
 ecall
 mv t6,a0
 ebreak
