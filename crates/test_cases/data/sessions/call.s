 li a7,53
 ecall
 nop
