# task 0 waits in-band for line 5
 li a0,5
 li a7,6
 ecall
l: j l
