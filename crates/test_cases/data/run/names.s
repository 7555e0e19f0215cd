# task 0 has mutex 0 and waits for semaphore 0 in get, which keeps what leads to its caller as the kit's library does; task 1 on processor 1
# runs other, by a record as that of evl_create, and waits for the mutex
 li a7,7
 li a0,1
 li a1,10
 ecall
 li a7,9
 li a0,0
 li a1,0
 ecall
 la t0,guard
 sd a0,0(t0)
 li a7,10
 li a0,0
 ecall
 li a7,3
 la a0,start
 la a1,record
 li a2,1
 ecall
 li a7,36
 li a0,0
 li a1,0
 ecall
 jal get
get: addi sp,sp,-16
 sd ra,8(sp)
 li a7,39
 li a0,0
 li a1,0
 ecall
start: mv tp,a0
 ld t0,0(a0)
 jr t0
other: li a7,7
 li a0,1
 li a1,20
 ecall
 li t0,60
wait: addi t0,t0,-1
 bne t0,zero,wait
 li a7,36
 li a0,0
 li a1,0
 ecall
 .data
record: .dword other
guard: .dword 99
 .dword 0x6c6c7566
