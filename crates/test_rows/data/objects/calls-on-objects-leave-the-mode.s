 li s2,3
 # attach 1, 10
 li a0,1
 li a1,10
 li a7,7
 ecall
 # set_mode 3
 li a0,3
 li a7,35
 ecall
 # new_semaphore 1
 li a0,1
 li a7,10
 ecall
 # set_mode 3
 li a0,3
 li a7,35
 ecall
 and s2,s2,a0
 addi s3,s3,1
 # new_event
 li a7,11
 ecall
 # set_mode 3
 li a0,3
 li a7,35
 ecall
 and s2,s2,a0
 addi s3,s3,1
 # new_flags
 li a7,12
 ecall
 # set_mode 3
 li a0,3
 li a7,35
 ecall
 and s2,s2,a0
 addi s3,s3,1
 # new_timer
 li a7,13
 ecall
 # set_mode 3
 li a0,3
 li a7,35
 ecall
 and s2,s2,a0
 addi s3,s3,1
 # set_line 5, 1, 0
 li a0,5
 li a1,1
 li a2,0
 li a7,14
 ecall
 # set_mode 3
 li a0,3
 li a7,35
 ecall
 and s2,s2,a0
 addi s3,s3,1
 # sem_get 0, 0
 li a0,0
 li a1,0
 li a7,39
 ecall
 # set_mode 3
 li a0,3
 li a7,35
 ecall
 and s2,s2,a0
 addi s3,s3,1
 # sem_tryget 0
 li a0,0
 li a7,40
 ecall
 # set_mode 3
 li a0,3
 li a7,35
 ecall
 and s2,s2,a0
 addi s3,s3,1
 # sem_put 0
 li a0,0
 li a7,41
 ecall
 # set_mode 3
 li a0,3
 li a7,35
 ecall
 and s2,s2,a0
 addi s3,s3,1
 # event_wait 0, 0, 0
 li a0,0
 li a1,0
 li a2,0
 li a7,42
 ecall
 # set_mode 3
 li a0,3
 li a7,35
 ecall
 and s2,s2,a0
 addi s3,s3,1
 # signal 0
 li a0,0
 li a7,43
 ecall
 # set_mode 3
 li a0,3
 li a7,35
 ecall
 and s2,s2,a0
 addi s3,s3,1
 # broadcast 0
 li a0,0
 li a7,44
 ecall
 # set_mode 3
 li a0,3
 li a7,35
 ecall
 and s2,s2,a0
 addi s3,s3,1
 # flags_post 0, 1
 li a0,0
 li a1,1
 li a7,46
 ecall
 # set_mode 3
 li a0,3
 li a7,35
 ecall
 and s2,s2,a0
 addi s3,s3,1
 # flags_wait 0, 0
 li a0,0
 li a1,0
 li a7,45
 ecall
 # set_mode 3
 li a0,3
 li a7,35
 ecall
 and s2,s2,a0
 addi s3,s3,1
 # sleep_until 0
 li a0,0
 li a7,47
 ecall
 # set_mode 3
 li a0,3
 li a7,35
 ecall
 and s2,s2,a0
 addi s3,s3,1
 # timer_set 0, 0, 0
 li a0,0
 li a1,0
 li a2,0
 li a7,48
 ecall
 # set_mode 3
 li a0,3
 li a7,35
 ecall
 and s2,s2,a0
 addi s3,s3,1
 # timer_wait 0
 li a0,0
 li a7,49
 ecall
 # set_mode 3
 li a0,3
 li a7,35
 ecall
 and s2,s2,a0
 addi s3,s3,1
 # sem_put 7
 li a0,7
 li a7,41
 ecall
 # set_mode 3
 li a0,3
 li a7,35
 ecall
 and s2,s2,a0
 addi s3,s3,1
 # sem_get 7, 0
 li a0,7
 li a1,0
 li a7,39
 ecall
 # set_mode 3
 li a0,3
 li a7,35
 ecall
 and s2,s2,a0
 addi s3,s3,1
 ebreak
