 # attach 1, 10
 li a0,1
 li a1,10
 li a7,7
 ecall
 # set_mode 1
 li a0,1
 li a7,35
 ecall
 # migrate 1
 li a0,1
 li a7,55
 ecall
 # putc
 li a0,65
 li a7,1
 ecall
l: j l
