# makes 32 mutexes, semaphores, event, flag groups and timers; the script pokes a call into its first two words
 nop
 nop
 li s0,32
m: li a0,0
 # new_mutex 0
 li a1,0
 li a7,9
 ecall
 # new_semaphore 0
 li a0,0
 li a7,10
 ecall
 # new_event
 li a7,11
 ecall
 # new_flags
 li a7,12
 ecall
 # new_timer
 li a7,13
 ecall
 addi s0,s0,-1
 bnez s0,m
l: j l
