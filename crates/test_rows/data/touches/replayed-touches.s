 lui s0,0x10001
 lui s1,0x10002
 li t0,3
 sd t0,0(s0)
 sd t0,16(s1)
 sd t0,8(s1)
 sd t0,0(s1)
 ld t1,0(s0)
 nop
 nop
here: j here
