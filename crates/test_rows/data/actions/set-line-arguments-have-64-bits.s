 # new_semaphore 0
 li a0,0
 li a7,10
 ecall
 # new_flags
 li a7,12
 ecall
 # set_line 5, 1, 0
 li a0,5
 li a1,1
 li a2,0
 li a7,14
 ecall
 mv s2,a0
 # set_line 2^32+5, 0, 0
 li a0,1
 slli a0,a0,32
 addi a0,a0,5
 li a1,0
 li a2,0
 li a7,14
 ecall
 mv s3,a0
 # set_line 5, 2^32, 0
 li a0,5
 li a1,1
 slli a1,a1,32
 li a2,0
 li a7,14
 ecall
 mv s4,a0
 # set_line 5, 2^32+1, 0
 li a0,5
 li a1,1
 slli a1,a1,32
 addi a1,a1,1
 li a2,0
 li a7,14
 ecall
 mv s5,a0
 # set_line 5, 1, 2^32
 li a0,5
 li a1,1
 li a2,1
 slli a2,a2,32
 li a7,14
 ecall
 mv s6,a0
 # set_line 5, 2, 2^32
 li a0,5
 li a1,2
 li a2,1
 slli a2,a2,32
 li a7,14
 ecall
 mv s7,a0
 # set_line 5, 2, 1
 li a0,5
 li a1,2
 li a2,1
 li a7,14
 ecall
 mv s8,a0
 # set_line 5, 3, 0
 li a0,5
 li a1,3
 li a2,0
 li a7,14
 ecall
 mv s9,a0
 # set_line 0, 1, 0
 li a0,0
 li a1,1
 li a2,0
 li a7,14
 ecall
 mv s10,a0
 # set_line 31, 2, 0
 li a0,31
 li a1,2
 li a2,0
 li a7,14
 ecall
 mv s11,a0
 ebreak
