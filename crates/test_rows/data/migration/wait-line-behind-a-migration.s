 # attach 1, 10
 li a0,1
 li a1,10
 li a7,7
 ecall
 # migrate 1
 li a0,1
 li a7,55
 ecall
 # wait_line 5
 li a0,5
 li a7,6
 ecall
l: j l
