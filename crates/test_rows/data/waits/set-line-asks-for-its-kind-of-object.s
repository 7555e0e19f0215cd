 # new_semaphore 0
 li a0,0
 li a7,10
 ecall
 # new_semaphore 0
 li a0,0
 li a7,10
 ecall
 # new_flags
 li a7,12
 ecall
 # set_line 5, 1, 2
 li a0,5
 li a1,1
 li a2,2
 li a7,14
 ecall
 mv s2,a0
 # set_line 5, 1, 1
 li a0,5
 li a1,1
 li a2,1
 li a7,14
 ecall
 mv s3,a0
 # set_line 5, 2, 1
 li a0,5
 li a1,2
 li a2,1
 li a7,14
 ecall
 mv s4,a0
 # set_line 5, 2, 0
 li a0,5
 li a1,2
 li a2,0
 li a7,14
 ecall
 mv s5,a0
 # set_line 5, 0, 9
 li a0,5
 li a1,0
 li a2,9
 li a7,14
 ecall
 mv s6,a0
 # set_line 1, 1, 0
 li a0,1
 li a1,1
 li a2,0
 li a7,14
 ecall
 mv s7,a0
 # set_line 64, 1, 0
 li a0,64
 li a1,1
 li a2,0
 li a7,14
 ecall
 mv s8,a0
 # set_line 5, 3, 0
 li a0,5
 li a1,3
 li a2,0
 li a7,14
 ecall
 mv s9,a0
 ebreak
