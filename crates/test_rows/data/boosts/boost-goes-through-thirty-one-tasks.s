# task t of 64, on processor t % 8, weak and of priority 3, locks mutex t if t is below 32, then all but task 0 wait for mutex (t + 31) % 32; task 63 has class 1 and priority 99, and waits for mutex 30
 # new_mutex 0, 32 times
 li s0,32
m: li a0,0
 li a7,9
 ecall
 addi s0,s0,-1
 bnez s0,m
 # spawn w, t, t % 8
 li s0,1
s: la a0,w
 mv a1,s0
 andi a2,s0,7
 li a7,3
 ecall
 addi s0,s0,1
 li t0,64
 bne s0,t0,s
 # attach 3, 3
 li a0,3
 li a1,3
 li a7,7
 ecall
 # lock 0, 0
 li a0,0
 li a1,0
 li a7,36
 ecall
 ebreak
 # switch_in_band: the other tasks of this processor run
 li a7,33
 ecall
e: j e
w: ebreak
 mv s0,a0
 # attach 3, 3, or 1, 99
 li a0,3
 li a1,3
 li t0,63
 bne s0,t0,low
 li a0,1
 li a1,99
low: li a7,7
 ecall
 # lock t, 0
 li a1,0
 li a7,36
 li t0,32
 bge s0,t0,wait
 mv a0,s0
 ecall
 # lock (t + 31) % 32, 0, or of task 63 lock 30, 0
wait: addi a0,s0,31
 andi a0,a0,31
 ecall
 ebreak
