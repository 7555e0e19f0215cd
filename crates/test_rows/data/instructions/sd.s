la x9,cases
# case 1
ld x12,0(x9)
addi x9,x9,8
addi x11,x9,0
sd x12,0(x11)
addi x9,x9,8
# case 2
ld x12,0(x9)
addi x9,x9,8
addi x11,x9,-8
sd x12,8(x11)
addi x9,x9,8
# case 3
ld x12,0(x9)
addi x9,x9,8
addi x11,x9,8
sd x12,-8(x11)
addi x9,x9,8
# case 4
ld x12,0(x9)
addi x9,x9,8
addi x11,x9,-2047
sd x12,2047(x11)
addi x9,x9,8
# case 5
ld x12,0(x9)
addi x9,x9,8
addi x11,x9,1024
addi x11,x11,1024
sd x12,-2048(x11)
addi x9,x9,8
# case 6
ld x12,0(x9)
addi x9,x9,8
addi x11,x9,-1
sd x12,1(x11)
addi x9,x9,8
.data
cases:
.dword 0x123456789abcdef,0x0
.dword 0x0,0xffffffffffffffff
.dword 0xffffffffffffffff,0x0
.dword 0xfedcba9876543210,0x1111111111111111
.dword 0x80,0x2222222222222222
.dword 0x100008000,0xffffffffffffffff
