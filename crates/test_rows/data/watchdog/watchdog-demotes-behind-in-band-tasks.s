 # spawn w, 0, 0
 la a0,w
 li a1,0
 li a2,0
 li a7,3
 ecall
 # attach 1, 10
 li a0,1
 li a1,10
 li a7,7
 ecall
 # switch_oob
 li a7,32
 ecall
l: j l
w: nop
 # yield
 li a7,2
 ecall
 j w
