 # attach 1, 10
 li a0,1
 li a1,10
 li a7,7
 ecall
 # migrate s0, for 1 to 7 and 0, again and again
 li s0,1
l: mv a0,s0
 li a7,55
 ecall
 addi s0,s0,1
 andi s0,s0,7
 j l
