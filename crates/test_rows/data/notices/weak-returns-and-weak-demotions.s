 # new semaphore 0
 li a0,0
 li a7,10
 ecall
 # new mutex 0
 li a0,0
 li a7,9
 ecall
 # attach 3, 5
 li a0,3
 li a1,5
 li a7,7
 ecall
 # set mode 3
 li a0,3
 li a7,35
 ecall
 # sem tryget 0
 li a0,0
 li a7,40
 ecall
 mv s2,a0
 # clock
 li a7,53
 ecall
 mv s3,a0
 # set mode 3
 li a0,3
 li a7,35
 ecall
 mv s4,a0
 # unlock 0
 li a0,0
 li a7,38
 ecall
 mv s5,a0
 # lock 0, 0
 li a0,0
 li a1,0
 li a7,36
 ecall
 # lock 0, 0
 li a0,0
 li a1,0
 li a7,36
 ecall
 mv s6,a0
 # putc 66
 li a0,66
 li a7,1
 ecall
 # unlock 0
 li a0,0
 li a7,38
 ecall
 mv s7,a0
 ebreak
