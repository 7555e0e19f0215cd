 lui s0,0x10000
 lui s1,0x10001
 lui s2,0x10002
 li t0,1
 sd t0,8(s2)
 sd t0,0(s0)
 sd t0,0(s1)
 sd t0,0(s2)
