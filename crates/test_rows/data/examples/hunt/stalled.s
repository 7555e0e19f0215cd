# The in-band stage is stalled, and the task waits for a line: the call is refused with -1.
        li a7,4         # stall
        ecall
        li a0,5
        li a7,6         # wait_line 5
        ecall
        li a7,5         # unstall
        ecall
        li a7,0         # exit
        ecall
