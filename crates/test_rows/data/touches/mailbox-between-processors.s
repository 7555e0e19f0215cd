 # spawn w, 0, 1
 la a0,w
 li a1,0
 li a2,1
 li a7,3
 ecall
 lui s0,0x10001
 li t0,1
 sd t0,0(s0)
 ld s2,0(s0)
 ld s3,0(s0)
 ebreak
w: lui s0,0x10001
 li t0,2
 sd t0,0(s0)
 ld s2,0(s0)
 ld s3,0(s0)
 ebreak
