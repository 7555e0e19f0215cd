 # spawn w, 0, 0
 la a0,w
 li a1,0
 li a2,0
 li a7,3
 ecall
 # yield inband
 li a7,2
 ecall
 # stall inband
 li a7,4
 ecall
 lui s0,0x10001
 sd s0,0(s0)
 ld zero,8(s0)
 ld zero,0(s0)
 # unstall inband
 li a7,5
 ecall
here: j here
w: # wait line 3
 li a0,3
 li a7,6
 ecall
 ebreak
