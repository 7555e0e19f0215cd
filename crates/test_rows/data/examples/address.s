        la a0,x
        .data
x:      .dword 5
