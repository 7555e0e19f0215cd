# a store outside memory: fault 7, of address 20000008
 lui t0,0x20000
 sd zero,8(t0)
