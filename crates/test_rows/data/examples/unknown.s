        li a0,1
        addi a9,a0,1    # there is no register of this name
