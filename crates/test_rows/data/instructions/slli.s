la x9,cases
# case 1
ld x11,0(x9)
slli x10,x11,1
sd x10,16(x9)
# case 2
ld x7,24(x9)
slli x6,x7,63
sd x6,40(x9)
# case 3
ld x30,48(x9)
slli x31,x30,4
sd x31,64(x9)
# case 4
ld x1,72(x9)
slli x1,x1,32
sd x1,88(x9)
# case 5
ld x15,96(x9)
slli x16,x15,0
sd x16,112(x9)
# case 6
ld x11,120(x9)
slli x10,x11,63
sd x10,136(x9)
# case 7
ld x7,144(x9)
slli x6,x7,62
sd x6,160(x9)
# case 8
ld x30,168(x9)
slli x31,x30,33
sd x31,184(x9)
.data
cases:
.dword 0xffffffffffffffff,0x0,0
.dword 0x8000000000000000,0x0,0
.dword 0xfedcba9876543210,0x0,0
.dword 0x123456789abcdef,0x0,0
.dword 0x123456789abcdef,0x0,0
.dword 0x1,0x0,0
.dword 0x7fffffffffffffff,0x0,0
.dword 0xfedcba9876543210,0x0,0
