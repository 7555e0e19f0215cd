 # new mutex 0
 li a0,0
 li a7,9
 ecall
 # spawn w, 0, 0
 la a0,w
 li a1,0
 li a2,0
 li a7,3
 ecall
 # yield inband
 li a7,2
 ecall
 # attach 2, 10
 li a0,2
 li a1,10
 li a7,7
 ecall
 # set mode 2
 li a0,2
 li a7,35
 ecall
 # lock 0, 0
 li a0,0
 li a1,0
 li a7,36
 ecall
 # lock 0, 0
 li a0,0
 li a1,0
 li a7,36
 ecall
 # trylock 0
 li a0,0
 li a7,37
 ecall
 # unlock 9
 li a0,9
 li a7,38
 ecall
 nop
here: j here
w: # attach 2, 10
 li a0,2
 li a1,10
 li a7,7
 ecall
 # sleep until 1
 li a0,1
 li a7,47
 ecall
there: j there
