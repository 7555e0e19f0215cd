        la t0,sum         # where the sum goes
        li a0,10
        li a1,0
loop:   add a1,a1,a0
        addi a0,a0,-1
        bnez a0,loop
        sd a1,0(t0)
        ebreak
        .data
sum:    .dword 0
