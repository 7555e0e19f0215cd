# One task, which jumps to itself for ever.
        .globl _start
_start: j _start
