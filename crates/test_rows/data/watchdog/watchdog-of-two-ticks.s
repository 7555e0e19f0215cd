 # attach 1, 10
 li a0,1
 li a1,10
 li a7,7
 ecall
 # switch_oob
 li a7,32
 ecall
loop: j loop
