nop

li a9,1
