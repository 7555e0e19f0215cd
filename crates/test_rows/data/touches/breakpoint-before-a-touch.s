 lui s0,0x10001
 li t0,7
 sd t0,0(s0)
 sd s0,0(s0)
 ld a0,0(s0)
 ebreak
