# 64 tasks of processor 0, of class 1 and priority 10, wake by their numbers and yield 1,000 times in all; the first that finds
# no turn left gives tasks 61 and 2 priority 9 and, 2 before 61, priority 10 again; each writes its number and sleeps
 # spawn w, t, 0
 li s0,1
s: la a0,w
 mv a1,s0
 li a2,0
 li a7,3
 ecall
 addi s0,s0,1
 li t0,64
 bne s0,t0,s
 li a0,0
w: mv s0,a0
 # attach 1, 10
 li a0,1
 li a1,10
 li a7,7
 ecall
 # sleep_until 1
 li a0,1
 li a7,47
 ecall
 # yield_oob
y: la t1,turns
 ld t0,0(t1)
 beqz t0,o
 addi t0,t0,-1
 sd t0,0(t1)
 li a7,50
 ecall
 j y
o: la t1,moved
 ld t0,0(t1)
 bnez t0,n
 li t0,1
 sd t0,0(t1)
 # set_sched 61, 1, 9
 li a0,61
 li a1,1
 li a2,9
 li a7,34
 ecall
 # set_sched 2, 1, 9
 li a0,2
 ecall
 # set_sched 2, 1, 10
 li a0,2
 li a2,10
 ecall
 # set_sched 61, 1, 10
 li a0,61
 ecall
 # its number, behind those that are there
n: la t1,next
 ld t0,0(t1)
 sb s0,0(t0)
 addi t0,t0,1
 sd t0,0(t1)
 # sleep_until 1000
 li a0,1000
 li a7,47
 ecall
l: j l
 .data
turns: .dword 1000
moved: .dword 0
next: .dword 0x80001018
