# 64 tasks of processor 0, of class 1 and priority 10: task t sleeps until 64 - t, then until 65; after each it writes its number
 # spawn w, t, 0
 li s0,1
s: la a0,w
 mv a1,s0
 li a2,0
 li a7,3
 ecall
 addi s0,s0,1
 li t0,64
 bne s0,t0,s
 li a0,0
w: mv s0,a0
 # attach 1, 10
 li a0,1
 li a1,10
 li a7,7
 ecall
 # sleep_until 64 - t
 li a0,64
 sub a0,a0,s0
 li a7,47
 ecall
 li s1,65
 # its number, behind those that are there
n: la t1,next
 ld t0,0(t1)
 sb s0,0(t0)
 addi t0,t0,1
 sd t0,0(t1)
 # sleep_until 65, then 1000
 mv a0,s1
 ecall
 li s1,1000
 j n
 .data
next: .dword 0x80001008
