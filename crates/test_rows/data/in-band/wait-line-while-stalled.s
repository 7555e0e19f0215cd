 # stall
 li a7,4
 ecall
 # wait_line 64
 li a0,64
 li a7,6
 ecall
 mv s2,a0
 # wait_line 5
 li a0,5
 li a7,6
 ecall
 mv s3,a0
 ebreak
