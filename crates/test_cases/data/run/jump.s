# a jump to a pc outside RAM: fault 1
 jalr zero,0(zero)
