 # attach 1, 10
 li a0,1
 li a1,10
 li a7,7
 ecall
 # set mode 3
 li a0,3
 li a7,35
 ecall
 # stall
 li a7,51
 ecall
 # switch inband
 li a7,33
 ecall
 mv s2,a0
 ebreak
