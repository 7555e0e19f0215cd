        li a0,1
        addi a0,a0,2048
