mul a0,a1,a2
