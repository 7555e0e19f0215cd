        li a0,1
        j nowhere
