        li a0,3
loop:   addi a0,a0,-1
        bnez a0,loop
loop:   ebreak
