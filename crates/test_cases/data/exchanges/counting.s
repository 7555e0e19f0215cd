# task 0 spawns a task of processor 1, and both add 1 to a counter for ever, each by a load and a store
 la t0,x
 la a0,w
 li a2,1
 li a7,3
 ecall
l: lw a1,0(t0)
 addi a1,a1,1
 sw a1,0(t0)
 j l
w: la t0,x
v: lw a1,0(t0)
 addi a1,a1,1
 sw a1,0(t0)
 j v
x: .word 0
