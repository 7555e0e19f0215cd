# One task, which stops its processor.
        .globl _start
_start: ebreak
