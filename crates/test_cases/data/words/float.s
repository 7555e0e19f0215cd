flw fa0,0(a1)
