 li a1,0x10002000
 li a0,2
 sd a0,16(a1)
