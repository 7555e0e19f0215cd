 # new semaphore 0
 li a0,0
 li a7,10
 ecall
 # set line 3, 1, 0
 li a0,3
 li a1,1
 li a2,0
 li a7,14
 ecall
 # attach 1, 10
 li a0,1
 li a1,10
 li a7,7
 ecall
 # stall
 li a7,51
 ecall
 lui s0,0x10001
 lui s1,0x10002
 li t0,1
 sd t0,8(s1)
 sd t0,0(s0)
 nop
 sd t0,0(s1)
 nop
 # unstall
 li a7,52
 ecall
 # sem tryget 0
 li a0,0
 li a7,40
 ecall
 mv s2,a0
 # sem tryget 0
 li a0,0
 li a7,40
 ecall
 mv s3,a0
 ebreak
