la x9,cases
# case 1
ld x11,0(x9)
slti x10,x11,0
sd x10,16(x9)
# case 2
ld x7,24(x9)
slti x6,x7,-1
sd x6,40(x9)
# case 3
ld x30,48(x9)
slti x31,x30,1
sd x31,64(x9)
# case 4
ld x1,72(x9)
slti x1,x1,-1
sd x1,88(x9)
# case 5
ld x15,96(x9)
slti x16,x15,-2048
sd x16,112(x9)
# case 6
ld x11,120(x9)
slti x10,x11,2047
sd x10,136(x9)
# case 7
ld x7,144(x9)
slti x6,x7,-1366
sd x6,160(x9)
# case 8
ld x30,168(x9)
slti x31,x30,1365
sd x31,184(x9)
# case 9
ld x1,192(x9)
slti x1,x1,-2048
sd x1,208(x9)
# case 10
ld x15,216(x9)
slti x16,x15,2047
sd x16,232(x9)
# case 11
ld x11,240(x9)
slti x10,x11,-2048
sd x10,256(x9)
.data
cases:
.dword 0x0,0x0,0
.dword 0x0,0x0,0
.dword 0xffffffffffffffff,0x0,0
.dword 0xffffffffffffffff,0x0,0
.dword 0x8000000000000000,0x0,0
.dword 0x7fffffffffffffff,0x0,0
.dword 0x123456789abcdef,0x0,0
.dword 0xfedcba9876543210,0x0,0
.dword 0x5,0x0,0
.dword 0x7ff,0x0,0
.dword 0xfffffffffffff800,0x0,0
