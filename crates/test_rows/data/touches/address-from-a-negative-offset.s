 lui s0,0x10003
 lui t0,0x1
 sub s1,s0,t0
 li t1,5
 sd t1,0(s1)
 addi s1,s1,16
 sd t1,-8(s1)
 li t2,9
 sd t2,0(s1)
 ld s2,-16(s1)
 ld s3,-8(s1)
 ld s4,0(s1)
 lui s5,0x10001
 addi s6,s5,24
 sd t2,-24(s6)
 ld s7,-16(s6)
 ebreak
