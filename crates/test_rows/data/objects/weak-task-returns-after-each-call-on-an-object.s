 # new_semaphore 2
 li a0,2
 li a7,10
 ecall
 # new_event
 li a7,11
 ecall
 # new_mutex 0, 0
 li a0,0
 li a1,0
 li a7,9
 ecall
 # new_flags
 li a7,12
 ecall
 # new_timer
 li a7,13
 ecall
 # attach 3, 10
 li a0,3
 li a1,10
 li a7,7
 ecall
 # sem_get 0, 0
 li a0,0
 li a1,0
 li a7,39
 ecall
 # state
 li a7,54
 ecall
 mv s2,a0
 # sem_tryget 0
 li a0,0
 li a7,40
 ecall
 # state
 li a7,54
 ecall
 mv s3,a0
 # event_wait 0, 0, 0
 li a0,0
 li a1,0
 li a2,0
 li a7,42
 ecall
 # state
 li a7,54
 ecall
 mv s4,a0
 # signal 0
 li a0,0
 li a7,43
 ecall
 # state
 li a7,54
 ecall
 mv s5,a0
 # broadcast 0
 li a0,0
 li a7,44
 ecall
 # state
 li a7,54
 ecall
 mv s6,a0
 # flags_post 0, 1
 li a0,0
 li a1,1
 li a7,46
 ecall
 # flags_wait 0, 0
 li a0,0
 li a1,0
 li a7,45
 ecall
 # state
 li a7,54
 ecall
 mv s7,a0
 # sleep_until 0
 li a0,0
 li a7,47
 ecall
 # state
 li a7,54
 ecall
 mv s8,a0
 # timer_set 0, 0, 0
 li a0,0
 li a1,0
 li a2,0
 li a7,48
 ecall
 # state
 li a7,54
 ecall
 mv s9,a0
 # timer_wait 0
 li a0,0
 li a7,49
 ecall
 # state
 li a7,54
 ecall
 mv s10,a0
 # sem_put 0
 li a0,0
 li a7,41
 ecall
 # state
 li a7,54
 ecall
 mv s11,a0
 ebreak
