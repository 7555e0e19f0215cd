 li s1,33
m:
 # new_semaphore 0
 li a0,0
 li a7,10
 ecall
 mv s2,a0
 addi s1,s1,-1
 bnez s1,m
 # new_semaphore 2^31
 li a0,1
 slli a0,a0,31
 li a7,10
 ecall
 mv s3,a0
 # new_semaphore 2^32
 li a0,1
 slli a0,a0,32
 li a7,10
 ecall
 mv s4,a0
 ebreak
