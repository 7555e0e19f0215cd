 # stall
 li a7,4
 ecall
 # new_semaphore 7
 li a0,7
 li a7,10
 ecall
 mv s2,a0
 # new_semaphore 7
 li a0,7
 li a7,10
 ecall
 mv s3,a0
 # new_event
 li a7,11
 ecall
 mv s4,a0
 # new_event
 li a7,11
 ecall
 mv s5,a0
 # new_flags
 li a7,12
 ecall
 mv s6,a0
 # new_flags
 li a7,12
 ecall
 mv s7,a0
 # new_timer
 li a7,13
 ecall
 mv s8,a0
 # new_timer
 li a7,13
 ecall
 mv s9,a0
 # set_line 5, 1, 1
 li a0,5
 li a1,1
 li a2,1
 li a7,14
 ecall
 mv s10,a0
 # set_line 5, 2, 1
 li a0,5
 li a1,2
 li a2,1
 li a7,14
 ecall
 mv s11,a0
 ebreak
