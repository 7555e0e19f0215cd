 # new mutex 0
 li a0,0
 li a7,9
 ecall
 # attach 1, 10
 li a0,1
 li a1,10
 li a7,7
 ecall
 # set mode 2
 li a0,2
 li a7,35
 ecall
 # switch inband
 li a7,33
 ecall
 # stall inband
 li a7,4
 ecall
 # unlock 0
 li a0,0
 li a7,38
 ecall
 mv s2,a0
 # unstall inband
 li a7,5
 ecall
 # unlock 0
 li a0,0
 li a7,38
 ecall
 mv s3,a0
 ebreak
