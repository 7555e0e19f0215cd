 # new_semaphore 0, new_flags
 li a0,0
 li a7,10
 ecall
 li a7,12
 ecall
 li a7,14
 # set_line 63, 1, 1
 li a0,63
 li a1,1
 li a2,1
 ecall
 mv s2,a0
 # set_line 63, 2, 1
 li a0,63
 li a1,2
 ecall
 mv s3,a0
 # set_line 63, 3, 0
 li a0,63
 li a1,3
 li a2,0
 ecall
 mv s4,a0
 # set_line 63, 2, 0
 li a0,63
 li a1,2
 ecall
 mv s5,a0
 # set_line 32, 0, 9
 li a0,32
 li a1,0
 li a2,9
 ecall
 mv s6,a0
 # set_line 2^32 + 63, 1, 0
 li a0,1
 slli a0,a0,32
 addi a0,a0,63
 li a1,1
 li a2,0
 ecall
 mv s7,a0
 # set_line 2^63, 0, 0
 li a0,1
 slli a0,a0,63
 li a1,0
 ecall
 mv s8,a0
 # set_line 63, 1, 0
 li a0,63
 li a1,1
 ecall
 mv s9,a0
 ebreak
