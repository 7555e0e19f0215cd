# What comes before main() of a program on libevl's headers, and before the function of each thread. tp holds the address of
# the thread's struct kit_thread, which kit.h describes.

	.section .text.start, "ax"
	.globl	_start
_start:
	la	tp, kit_main
	call	kit_begin

# A new task has the address of its thread in a0.
	.globl	kit_thread_start
kit_thread_start:
	mv	tp, a0
	ld	sp, 0(a0)
	call	kit_run

# void kit_leave(volatile int *gone): 1 there says that the stack isn't used any more.
	.globl	kit_leave
kit_leave:
	li	t0, 1
	sw	t0, 0(a0)
1:	li	a7, 0			# exit
	ecall
	j	1b
