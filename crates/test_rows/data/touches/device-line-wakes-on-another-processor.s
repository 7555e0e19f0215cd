 # new semaphore 0
 li a0,0
 li a7,10
 ecall
 # set line 4, 1, 0
 li a0,4
 li a1,1
 li a2,0
 li a7,14
 ecall
 # spawn w, 0, 1
 la a0,w
 li a1,0
 li a2,1
 li a7,3
 ecall
 lui s0,0x10002
 li t0,1
 sd t0,8(s0)
 sd t0,0(s0)
 nop
here: j here
w: # attach 1, 20
 li a0,1
 li a1,20
 li a7,7
 ecall
 # sem get 0, 0
 li a0,0
 li a1,0
 li a7,39
 ecall
 lui s0,0x10002
 ld s1,0(s0)
 ebreak
