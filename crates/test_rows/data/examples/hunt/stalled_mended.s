# The stage is unstalled before the wait.
        li a7,4         # stall
        ecall
        li a7,5         # unstall
        ecall
        li a0,5
        li a7,6         # wait_line 5
        ecall
        li a7,0         # exit
        ecall
