# What comes before main(), and before the function of a task that evl_create() makes.
#
# Task 0 begins at the image's entry, in-band on processor 0, with sp at RAM's end and its other registers 0. The loader
# leaves zeros behind what the file holds of a segment, so .bss needs no loop here.

	.section .text.start, "ax"
	.globl	_start
_start:
	call	main
1:	li	a7, 0			# exit
	ecall

# A spawned task has one register that isn't 0: a0. evl_create() puts a struct evl_start at the end of the task's stack,
# and its address in a0. It stays in tp, by which tools know the function.
	.globl	evl_task_start
evl_task_start:
	mv	sp, a0
	mv	tp, a0
	ld	t0, 0(a0)		# fn
	ld	a0, 8(a0)		# arg
	jalr	ra, 0(t0)
	j	1b
