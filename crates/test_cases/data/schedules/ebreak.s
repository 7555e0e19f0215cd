 nop
 ebreak
