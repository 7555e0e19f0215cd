 # attach 1, 10
 li a0,1
 li a1,10
 li a7,7
 ecall
 li x1,101
 li x2,102
 li x3,103
 li x4,104
 li x5,105
 li x6,106
 li x7,107
 li x8,108
 li x9,109
 li x11,111
 li x12,112
 li x13,113
 li x14,114
 li x15,115
 li x16,116
 li x18,118
 li x19,119
 li x20,120
 li x21,121
 li x22,122
 li x23,123
 li x24,124
 li x25,125
 li x26,126
 li x27,127
 li x28,128
 li x29,129
 li x30,130
 li x31,131
 # migrate 1
 li a0,1
 li a7,55
 ecall
 li a1,-1
l: j l
