la x9,cases
# case 1
addi x11,x9,0
lhu x10,0(x11)
sd x10,8(x9)
addi x9,x9,16
# case 2
addi x11,x9,-8
lhu x10,8(x11)
sd x10,8(x9)
addi x9,x9,16
# case 3
addi x11,x9,8
lhu x10,-8(x11)
sd x10,8(x9)
addi x9,x9,16
# case 4
addi x11,x9,-2047
lhu x10,2047(x11)
sd x10,8(x9)
addi x9,x9,16
# case 5
addi x11,x9,1024
addi x11,x11,1024
lhu x10,-2048(x11)
sd x10,8(x9)
addi x9,x9,16
# case 6
addi x11,x9,-1
lhu x10,1(x11)
sd x10,8(x9)
addi x9,x9,16
# case 7
addi x11,x9,1
lhu x10,-1(x11)
sd x10,8(x9)
addi x9,x9,16
# case 8
addi x11,x9,-4
lhu x10,4(x11)
sd x10,8(x9)
addi x9,x9,16
.data
cases:
.dword 0xcdef,0
.dword 0x3210,0
.dword 0x8080,0
.dword 0x7f7f,0
.dword 0xffff,0
.dword 0x0,0
.dword 0x8000,0
.dword 0x0,0
