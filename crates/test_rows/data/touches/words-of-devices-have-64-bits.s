 li t0,-2
 slli t1,t0,62
 addi t1,t1,0x141
 lui s0,0x10000
 sd t1,0(s0)
 lui s1,0x10001
 sd t0,0(s1)
 sd t1,0(s1)
 lui s2,0x10002
 sd t1,8(s2)
 sd t0,0(s2)
 sd t0,16(s2)
 ld s3,0(s1)
 ld s4,8(s1)
 ld s5,16(s2)
 ebreak
