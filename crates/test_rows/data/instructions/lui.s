la x9,cases
lui x10,0
sd x10,0(x9)
lui x10,1
sd x10,8(x9)
lui x10,524287
sd x10,16(x9)
lui x10,524288
sd x10,24(x9)
lui x10,1048575
sd x10,32(x9)
lui x10,74565
sd x10,40(x9)
.data
cases:
.dword 0
.dword 0
.dword 0
.dword 0
.dword 0
.dword 0
