 # new_semaphore 0
 li a0,0
 li a7,10
 ecall
 # new_event
 li a7,11
 ecall
 # new_flags
 li a7,12
 ecall
 # new_timer
 li a7,13
 ecall
 # new_mutex 0, 0
 li a0,0
 li a1,0
 li a7,9
 ecall
 # new_mutex 0, 0
 li a0,0
 li a1,0
 li a7,9
 ecall
 # spawn @w, 0, 1
 la a0,w
 li a1,0
 li a2,1
 li a7,3
 ecall
 # attach 1, 10
 li a0,1
 li a1,10
 li a7,7
 ecall
 # lock 0, 0
 li a0,0
 li a1,0
 li a7,36
 ecall
 ebreak
w:
 # attach 1, 20
 li a0,1
 li a1,20
 li a7,7
 ecall
 # timer_set 0, 9, 0
 li a0,0
 li a1,9
 li a2,0
 li a7,48
 ecall
 # lock 1, 0
 li a0,1
 li a1,0
 li a7,36
 ecall
 # stall_oob
 li a7,51
 ecall
 # lock 0, 0
 li a0,0
 li a1,0
 li a7,36
 ecall
 mv s2,a0
 # sem_get 0, 0
 li a0,0
 li a1,0
 li a7,39
 ecall
 mv s3,a0
 # event_wait 0, 1, 0
 li a0,0
 li a1,1
 li a2,0
 li a7,42
 ecall
 mv s4,a0
 # flags_wait 0, 0
 li a0,0
 li a1,0
 li a7,45
 ecall
 mv s5,a0
 # sleep_until 9
 li a0,9
 li a7,47
 ecall
 mv s6,a0
 # timer_wait 0
 li a0,0
 li a7,49
 ecall
 mv s7,a0
 # state
 li a7,54
 ecall
 mv s8,a0
 ebreak
