here: lw a0, 8( sp8 ) # t9
