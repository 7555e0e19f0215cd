 # new mutex 0
 li a0,0
 li a7,9
 ecall
 # new event
 li a7,11
 ecall
 # new semaphore 0
 li a0,0
 li a7,10
 ecall
 # spawn w, 0, 1
 la a0,w
 li a1,0
 li a2,1
 li a7,3
 ecall
 ebreak
 # attach 1, 10
 li a0,1
 li a1,10
 li a7,7
 ecall
 # set mode 3
 li a0,3
 li a7,35
 ecall
 # event wait 0, 0, 0
 li a0,0
 li a1,0
 li a2,0
 li a7,42
 ecall
 mv s2,a0
 # lock 0, 1
 li a0,0
 li a1,1
 li a7,36
 ecall
 mv s3,a0
 # no call
 li a7,99
 ecall
 mv s4,a0
 # unlock 3
 li a0,3
 li a7,38
 ecall
 mv s5,a0
 # sem tryget 0
 li a0,0
 li a7,40
 ecall
 mv s6,a0
 # set sched 7, 1, 1
 li a0,7
 li a1,1
 li a2,1
 li a7,34
 ecall
 mv s7,a0
 # signal 4
 li a0,4
 li a7,43
 ecall
 mv s8,a0
 ebreak
w: # attach 1, 20
 li a0,1
 li a1,20
 li a7,7
 ecall
 # lock 0, 0
 li a0,0
 li a1,0
 li a7,36
 ecall
 ebreak
