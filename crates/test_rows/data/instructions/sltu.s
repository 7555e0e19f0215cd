la x9,cases
# case 1
ld x11,0(x9)
ld x12,8(x9)
sltu x10,x11,x12
sd x10,16(x9)
# case 2
ld x6,24(x9)
ld x7,32(x9)
sltu x5,x6,x7
sd x5,40(x9)
# case 3
ld x30,48(x9)
ld x29,56(x9)
sltu x31,x30,x29
sd x31,64(x9)
# case 4
ld x1,72(x9)
ld x2,80(x9)
sltu x1,x1,x2
sd x1,88(x9)
# case 5
ld x1,96(x9)
ld x2,104(x9)
sltu x2,x1,x2
sd x2,112(x9)
# case 6
ld x15,120(x9)
ld x8,128(x9)
sltu x16,x15,x8
sd x16,136(x9)
# case 7
ld x11,144(x9)
ld x12,152(x9)
sltu x10,x11,x12
sd x10,160(x9)
# case 8
ld x6,168(x9)
ld x7,176(x9)
sltu x5,x6,x7
sd x5,184(x9)
# case 9
ld x30,192(x9)
ld x29,200(x9)
sltu x31,x30,x29
sd x31,208(x9)
# case 10
ld x1,216(x9)
ld x2,224(x9)
sltu x1,x1,x2
sd x1,232(x9)
.data
cases:
.dword 0x0,0x0,0
.dword 0x0,0x1,0
.dword 0x1,0x0,0
.dword 0xffffffffffffffff,0x0,0
.dword 0x0,0xffffffffffffffff,0
.dword 0x8000000000000000,0x7fffffffffffffff,0
.dword 0x7fffffffffffffff,0x8000000000000000,0
.dword 0xffffffffffffffff,0xfffffffffffffffe,0
.dword 0x8000000000000000,0x8000000000000000,0
.dword 0xffffffff,0xffffffffffffffff,0
