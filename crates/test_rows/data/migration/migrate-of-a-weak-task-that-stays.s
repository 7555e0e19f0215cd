 # spawn w, 0, 0
 la a0,w
 li a1,0
 li a2,0
 li a7,3
 ecall
 # attach 3, 5
 li a0,3
 li a1,5
 li a7,7
 ecall
 # migrate 5
 li a0,5
 li a7,55
 ecall
 mv s2,a0
 # migrate 0
 li a0,0
 ecall
 mv s3,a0
l: j l
w: nop
 li a7,2
 ecall
 j w
