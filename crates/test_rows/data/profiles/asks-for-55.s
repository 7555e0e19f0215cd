# each call 55 must answer -38: of a task without a class, of one that has one in-band and out-of-band, and of no processor; else it goes to n
 li t0,-38
 # migrate 1
 li a0,1
 li a7,55
 ecall
 bne a0,t0,n
 # attach 1, 10
 li a0,1
 li a1,10
 li a7,7
 ecall
 # migrate 1
 li a0,1
 li a7,55
 ecall
 bne a0,t0,n
 # switch_oob
 li a7,32
 ecall
 # migrate 1
 li a0,1
 li a7,55
 ecall
 bne a0,t0,n
 # stall, migrate 1
 li a7,51
 ecall
 li a0,1
 li a7,55
 ecall
 bne a0,t0,n
y: j y
n: j n
