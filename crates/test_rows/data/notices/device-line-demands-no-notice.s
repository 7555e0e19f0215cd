 # spawn w, 0, 0
 la a0,w
 li a1,0
 li a2,0
 li a7,3
 ecall
 # yield inband
 li a7,2
 ecall
 # attach 1, 10
 li a0,1
 li a1,10
 li a7,7
 ecall
 # set mode 3
 li a0,3
 li a7,35
 ecall
 lui s0,0x10001
 sd s0,0(s0)
 nop
 # switch inband
 li a7,33
 ecall
 # yield inband
 li a7,2
 ecall
here: j here
w: # wait line 3
 li a0,3
 li a7,6
 ecall
 ebreak
