 # attach 1, 10
 li a0,1
 li a1,10
 li a7,7
 ecall
 # new_mutex 0, 0
 li a0,0
 li a1,0
 li a7,9
 ecall
 # switch_oob
 li a7,32
 ecall
 # sem_tryget 9
 li a0,9
 li a7,40
 ecall
 # call 100
 li a7,100
 ecall
 # sleep_until 1
 li a0,1
 li a7,47
 ecall
 # set_sched 0, 1, 20
 li a0,0
 li a1,1
 li a2,20
 li a7,34
 ecall
 # lock 0, 0
 li a0,0
 li a1,0
 li a7,36
 ecall
 # unlock 0
 li a0,0
 li a7,38
 ecall
 # migrate 0
 li a0,0
 li a7,55
 ecall
 # yield
 li a7,50
 ecall
 # clock
 li a7,53
 ecall
 # state
 li a7,54
 ecall
l: j l
