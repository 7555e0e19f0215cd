 # new_semaphore 0
 li a0,0
 li a7,10
 ecall
 # new_event
 li a7,11
 ecall
 # new_flags
 li a7,12
 ecall
 # new_timer
 li a7,13
 ecall
 # new_mutex 0, 0
 li a0,0
 li a1,0
 li a7,9
 ecall
 # attach 1, 10
 li a0,1
 li a1,10
 li a7,7
 ecall
 # set_mode 3
 li a0,3
 li a7,35
 ecall
 # timer_set 0, 4, 0
 li a0,0
 li a1,4
 li a2,0
 li a7,48
 ecall
 # sleep_until 1
 li a0,1
 li a7,47
 ecall
 mv s2,a0
 # sem_get 0, 2
 li a0,0
 li a1,2
 li a7,39
 ecall
 mv s3,a0
 # flags_wait 0, 3
 li a0,0
 li a1,3
 li a7,45
 ecall
 mv s4,a0
 # timer_wait 0
 li a0,0
 li a7,49
 ecall
 mv s5,a0
 # lock 0, 0
 li a0,0
 li a1,0
 li a7,36
 ecall
 # event_wait 0, 0, 5
 li a0,0
 li a1,0
 li a2,5
 li a7,42
 ecall
 mv s6,a0
 # set_mode 0
 li a0,0
 li a7,35
 ecall
 mv s7,a0
 # clock
 li a7,53
 ecall
 mv s8,a0
 ebreak
