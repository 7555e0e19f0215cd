la x9,cases
# case 1
addi x11,x9,0
ld x10,0(x11)
sd x10,8(x9)
addi x9,x9,16
# case 2
addi x11,x9,-8
ld x10,8(x11)
sd x10,8(x9)
addi x9,x9,16
# case 3
addi x11,x9,8
ld x10,-8(x11)
sd x10,8(x9)
addi x9,x9,16
# case 4
addi x11,x9,-2047
ld x10,2047(x11)
sd x10,8(x9)
addi x9,x9,16
# case 5
addi x11,x9,1024
addi x11,x11,1024
ld x10,-2048(x11)
sd x10,8(x9)
addi x9,x9,16
# case 6
addi x11,x9,-1
ld x10,1(x11)
sd x10,8(x9)
addi x9,x9,16
# case 7
addi x11,x9,1
ld x10,-1(x11)
sd x10,8(x9)
addi x9,x9,16
# case 8
addi x11,x9,-4
ld x10,4(x11)
sd x10,8(x9)
addi x9,x9,16
.data
cases:
.dword 0x123456789abcdef,0
.dword 0xfedcba9876543210,0
.dword 0x8080808080808080,0
.dword 0x7f7f7f7f7f7f7f7f,0
.dword 0xffffffffffffffff,0
.dword 0xffffffff00000000,0
.dword 0xffff8000,0
.dword 0x80000000,0
