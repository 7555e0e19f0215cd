add x9, s3, x18
add x31,x31,x31
sub t1, s1, a2
sub x31,x31,x31
sll x14, t2, fp
sll x31,x31,x31
slt s11, tp, a1
slt x31,x31,x31
sltu x23, x21, s0
sltu x31,x31,x31
xor t5, a1, x22
xor x31,x31,x31
srl t2, a5, t3
srl x31,x31,x31
sra t2, x18, t1
sra x31,x31,x31
or t3, t0, a7
or x31,x31,x31
and x5, x21, s2
and x31,x31,x31
addw a5, x7, s7
addw x31,x31,x31
subw a3, s8, x15
subw x31,x31,x31
sllw a2, s0, t2
sllw x31,x31,x31
srlw s10, x31, x22
srlw x31,x31,x31
sraw x8, x27, x26
sraw x31,x31,x31
add zero,x0,zero
add ra,x1,ra
add sp,x2,sp
add gp,x3,gp
add tp,x4,tp
add t0,x5,t0
add t1,x6,t1
add t2,x7,t2
add s0,x8,s0
add s1,x9,s1
add a0,x10,a0
add a1,x11,a1
add a2,x12,a2
add a3,x13,a3
add a4,x14,a4
add a5,x15,a5
add a6,x16,a6
add a7,x17,a7
add s2,x18,s2
add s3,x19,s3
add s4,x20,s4
add s5,x21,s5
add s6,x22,s6
add s7,x23,s7
add s8,x24,s8
add s9,x25,s9
add s10,x26,s10
add s11,x27,s11
add t3,x28,t3
add t4,x29,t4
add t5,x30,t5
add t6,x31,t6
add fp,s0,x8
addi x14,x6,-2048
addi t6,s7,2047
addi t6,a0,0
addi x6,x31,-1
addi x11,x25,0x7ff
addi x4,s1,-0x800
slti a5,x21,-2048
slti s5,x11,2047
slti s3,x30,0
slti x21,t0,-1
slti s1,x8,0x7ff
slti x11,x12,-0x800
sltiu x31,x26,-2048
sltiu s0,a1,2047
sltiu x2,x28,0
sltiu s0,t2,-1
sltiu x7,x25,0x7ff
sltiu x4,x17,-0x800
xori x12,sp,-2048
xori x27,x13,2047
xori s5,a4,0
xori x31,t2,-1
xori s11,x4,0x7ff
xori a6,t6,-0x800
ori x18,x18,-2048
ori x31,a0,2047
ori s5,x25,0
ori x19,x3,-1
ori a7,x23,0x7ff
ori x3,x21,-0x800
andi x13,x16,-2048
andi t4,s3,2047
andi a0,s6,0
andi s3,t4,-1
andi t4,ra,0x7ff
andi x30,s7,-0x800
addiw x1,x4,-2048
addiw zero,s2,2047
addiw x21,x15,0
addiw x8,a6,-1
addiw t1,x26,0x7ff
addiw x18,x18,-0x800
slli x19,x18,0
slli a3,x29,1
slli x19,t2,31
slli s8,s0,32
slli s10,x24,63
srli s4,a4,0
srli x11,t1,1
srli a3,zero,31
srli s3,a2,32
srli x14,gp,63
srai s1,s10,0
srai x16,s3,1
srai x0,x12,31
srai x14,x28,32
srai a5,a4,63
slliw x30,x27,0
slliw x29,x29,1
slliw x7,a0,31
srliw s2,a3,0
srliw x11,x1,1
srliw x29,s4,31
sraiw sp,s10,0
sraiw x14,s2,1
sraiw gp,x6,31
lb a1,-2048(x1)
lb x14,2047(s5)
lb x13,(t3)
lh fp,-2048(x10)
lh t3,2047(s8)
lh t5,(x19)
lw t4,-2048(s9)
lw x31,2047(x13)
lw gp,(gp)
ld x3,-2048(x28)
ld x1,2047(s8)
ld x12,(x25)
lbu x12,-2048(x14)
lbu a0,2047(t3)
lbu a3,(t4)
lhu x28,-2048(s9)
lhu x11,2047(s10)
lhu x29,(zero)
lwu x29,-2048(x12)
lwu a0,2047(a5)
lwu x17,(s9)
sb x29,-2048(s6)
sb x23,2047(x10)
sb a1, ( x18 )
sh x27,-2048(x19)
sh a0,2047(s4)
sh s5, ( a6 )
sw gp,-2048(s3)
sw x27,2047(s2)
sw x28, ( x12 )
sd s3,-2048(a6)
sd sp,2047(ra)
sd a3, ( a7 )
lui x23,0
lui s8,1048575
lui s11,0x80000
lui gp,524287
auipc x0,0
auipc s11,1048575
auipc x5,0x80000
auipc fp,524287
fence
ecall
ebreak
nop
ret
jr t0
jalr t1
jalr ra,0(a0)
jalr x0,-2048(a1)
jalr s1,2047(sp)
mv t5,x9
mv x31,x1
not x1,x21
not x31,x1
neg a6,t2
neg x31,x1
negw x13,x26
negw x31,x1
sext.w x21,fp
sext.w x31,x1
seqz a6,s3
seqz x31,x1
snez sp,x24
snez x31,x1
sltz s7,zero
sltz x31,x1
sgtz s3,s6
sgtz x31,x1
li t0,0
li a6,5
li s4,-1
li s8,2047
li tp,2048
li s2,-2048
li sp,-2049
li a1,4095
li s6,4096
li a7,-4096
li a7,0x7ff
li s2,0x800
li a6,0xfff
li s10,0x1000
li s9,65536
li tp,0x12345678
li t4,-0x12345678
li s2,2147483647
li sp,-2147483648
li s0,0x7fffffff
li t2,0x7ffff800
li s1,0x7ffff7ff
li sp,-2147481600
li s9,0x80000
li tp,123456789
li a7,-987654321
li a5,-0x80000000
li x0,77
li a0,2147483647
near:
beq gp,s0,near
beq x24,x9,soon
bne fp,s9,near
bne x3,x25,soon
blt x29,fp,near
blt t6,x1,soon
bge s9,x25,near
bge a7,x21,soon
bltu a5,x18,near
bltu x24,x8,soon
bgeu s1,t5,near
bgeu x22,s1,soon
bgt s11,x6,near
bgt a5,s3,soon
ble x14,s2,near
ble x0,a7,soon
bgtu x27,t3,near
bgtu a2,x18,soon
bleu x30,s4,near
bleu t3,s4,soon
soon: nop
beqz x23,soon
beqz x19,later
bnez x11,soon
bnez x21,later
bltz s9,soon
bltz x13,later
bgez x8,soon
bgez a1,later
bgtz x14,soon
bgtz sp,later
blez x11,soon
blez x26,later
later:again: 
j near
j farthest
jal soon
jal t3,later
jal farthest
jal x0,again
la a0,near
la s11,value
la t6,farthest
la gp,bytes
again2: la x5,again2
.globl near
.global farthest
back: nop
beq a0,a1,ahead
.space 4084
nop
ahead: nop
b2: nop
.space 4092
bne a2,a3,b2
.byte 1,2,3
.space 1
.align 2
add a0,a0,a0
.align 4
sub a1,a1,a1
.byte 255,-128
.space 2
.align 3
nop
.word near
.word -1, 4294967295, -2147483648, value
.dword 18446744073709551615, -9223372036854775808, near, value
.align 0
.align 1
.align 12
farthest: nop
beqz a0,farthest
.data
value: .dword 5
bytes: .byte 0xff, -1, 127
.align 3
.word 1, 2
.dword bytes
tail: .space 3
.align 2
last: .byte 9
.text
after: la a1,last
ret
.data
.word 7
.word after
