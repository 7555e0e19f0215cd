 # new mutex 0
 li a0,0
 li a7,9
 ecall
 # new mutex 0
 li a0,0
 li a7,9
 ecall
 # new mutex 0
 li a0,0
 li a7,9
 ecall
 # spawn one, 0, 0
 la a0,one
 li a1,0
 li a2,0
 li a7,3
 ecall
 # spawn two, 0, 1
 la a0,two
 li a1,0
 li a2,1
 li a7,3
 ecall
 # spawn three, 0, 2
 la a0,three
 li a1,0
 li a2,2
 li a7,3
 ecall
 # exit
 li a7,0
 ecall
one: # attach 1, 10
 li a0,1
 li a1,10
 li a7,7
 ecall
 # lock 0, 0
 li a0,0
 li a1,0
 li a7,36
 ecall
 # sleep until 1
 li a0,1
 li a7,47
 ecall
 # lock 1, 0
 li a0,1
 li a1,0
 li a7,36
 ecall
 ebreak
two: # attach 1, 20
 li a0,1
 li a1,20
 li a7,7
 ecall
 # lock 1, 0
 li a0,1
 li a1,0
 li a7,36
 ecall
 # sleep until 1
 li a0,1
 li a7,47
 ecall
 # lock 2, 0
 li a0,2
 li a1,0
 li a7,36
 ecall
 ebreak
three: # attach 2, 30
 li a0,2
 li a1,30
 li a7,7
 ecall
 # set mode 2
 li a0,2
 li a7,35
 ecall
 # lock 2, 0
 li a0,2
 li a1,0
 li a7,36
 ecall
 # sleep until 2
 li a0,2
 li a7,47
 ecall
 # lock 0, 0
 li a0,0
 li a1,0
 li a7,36
 ecall
 ebreak
