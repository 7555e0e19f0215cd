 # new_semaphore 1
 li a0,1
 li a7,10
 ecall
 # new_event
 li a7,11
 ecall
 # new_flags
 li a7,12
 ecall
 # new_timer
 li a7,13
 ecall
 # spawn @w, 0, 0
 la a0,w
 li a1,0
 li a2,0
 li a7,3
 ecall
 # yield
 li a7,2
 ecall
 # attach 2, 10
 li a0,2
 li a1,10
 li a7,7
 ecall
 # switch_oob
 li a7,32
 ecall
 ebreak
 # sem_get 0, 0
 li a0,0
 li a1,0
 li a7,39
 ecall
 # sem_put 0
 li a0,0
 li a7,41
 ecall
 # sem_tryget 0
 li a0,0
 li a7,40
 ecall
 # sem_tryget 0
 li a0,0
 li a7,40
 ecall
 # sem_get 5, 0
 li a0,5
 li a1,0
 li a7,39
 ecall
 # flags_post 0, 6
 li a0,0
 li a1,6
 li a7,46
 ecall
 # flags_wait 0, 0
 li a0,0
 li a1,0
 li a7,45
 ecall
 # flags_wait 5, 0
 li a0,5
 li a1,0
 li a7,45
 ecall
 # event_wait 0, 0, 0
 li a0,0
 li a1,0
 li a2,0
 li a7,42
 ecall
 # signal 0
 li a0,0
 li a7,43
 ecall
 # broadcast 0
 li a0,0
 li a7,44
 ecall
 # sleep_until 1
 li a0,1
 li a7,47
 ecall
 # timer_set 0, 2, 0
 li a0,0
 li a1,2
 li a2,0
 li a7,48
 ecall
 # timer_set 5, 2, 0
 li a0,5
 li a1,2
 li a2,0
 li a7,48
 ecall
 # timer_set 0, 0, 0
 li a0,0
 li a1,0
 li a2,0
 li a7,48
 ecall
 # timer_wait 0
 li a0,0
 li a7,49
 ecall
 # lock 5, 0
 li a0,5
 li a1,0
 li a7,36
 ecall
 # set_mode 0
 li a0,0
 li a7,35
 ecall
 # clock
 li a7,53
 ecall
 # state
 li a7,54
 ecall
 mv s2,a0
 ebreak
w:
 # attach 2, 10
 li a0,2
 li a1,10
 li a7,7
 ecall
 # sleep_until 1
 li a0,1
 li a7,47
 ecall
v: j v
