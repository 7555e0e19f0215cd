add a0,a1,5
