# h by the call putc, i by the device console, a newline by the call
 li a7,1
 li a0,104
 ecall
 lui t0,0x10000
 li t1,105
 sd t1,0(t0)
 li a0,10
 ecall
 li a7,0
 ecall
