# a replay shows the owners behind the tasks: a mutex that is owned twice, and a free one
 # attach 1, 10
 li a0,1
 li a1,10
 li a7,7
 ecall
 # new_mutex 1
 li a0,1
 li a7,9
 ecall
 # new_mutex 0
 li a0,0
 li a7,9
 ecall
 # lock 0, 0, twice
 li a0,0
 li a1,0
 li a7,36
 ecall
 ecall
