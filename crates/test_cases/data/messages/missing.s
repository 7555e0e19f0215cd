nop
beqz a0,there
