# a task that keeps its processor out-of-band
 li a7,7
 li a0,1
 li a1,10
 ecall
 li a7,32
 ecall
loop: j loop
