la x9,cases
# case 1
li x10,1
ld x11,0(x9)
ld x12,8(x9)
bltu x11,x12,taken1
li x10,0
taken1: sd x10,16(x9)
addi x9,x9,24
# case 2
li x10,1
ld x11,0(x9)
ld x12,8(x9)
bltu x11,x12,taken2
li x10,0
taken2: sd x10,16(x9)
addi x9,x9,24
# case 3
li x10,1
ld x11,0(x9)
ld x12,8(x9)
bltu x11,x12,taken3
li x10,0
taken3: sd x10,16(x9)
addi x9,x9,24
# case 4
li x10,1
ld x11,0(x9)
ld x12,8(x9)
bltu x11,x12,taken4
li x10,0
taken4: sd x10,16(x9)
addi x9,x9,24
# case 5
li x10,1
ld x11,0(x9)
ld x12,8(x9)
bltu x11,x12,taken5
li x10,0
taken5: sd x10,16(x9)
addi x9,x9,24
# case 6
li x10,1
ld x11,0(x9)
ld x12,8(x9)
bltu x11,x12,taken6
li x10,0
taken6: sd x10,16(x9)
addi x9,x9,24
# case 7
li x10,1
ld x11,0(x9)
ld x12,8(x9)
bltu x11,x12,taken7
li x10,0
taken7: sd x10,16(x9)
addi x9,x9,24
# case 8
li x10,1
ld x11,0(x9)
ld x12,8(x9)
bltu x11,x12,taken8
li x10,0
taken8: sd x10,16(x9)
addi x9,x9,24
# case 9
li x10,1
ld x11,0(x9)
ld x12,8(x9)
bltu x11,x12,taken9
li x10,0
taken9: sd x10,16(x9)
addi x9,x9,24
# case 10
li x10,1
ld x11,0(x9)
ld x12,8(x9)
bltu x11,x12,taken10
li x10,0
taken10: sd x10,16(x9)
addi x9,x9,24
.data
cases:
.dword 0x0,0x0,2
.dword 0x0,0x1,2
.dword 0x1,0x0,2
.dword 0xffffffffffffffff,0x0,2
.dword 0x0,0xffffffffffffffff,2
.dword 0x8000000000000000,0x7fffffffffffffff,2
.dword 0x7fffffffffffffff,0x8000000000000000,2
.dword 0xffffffffffffffff,0xfffffffffffffffe,2
.dword 0x8000000000000000,0x8000000000000000,2
.dword 0xffffffff,0xffffffffffffffff,2
