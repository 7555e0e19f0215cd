csrr a0,mstatus
