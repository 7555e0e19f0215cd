/*
 * The one header here that libevl lacks: what the machine has in the place of a driver. A program that includes it marks
 * the place. `line` is an interrupt line of 2 to 63, to post flags one of 2 to 31; a device raises line 2 and its number, on
 * processor 0.
 */
#ifndef _EVL_MACHINE_H
#define _EVL_MACHINE_H

#include <evl/flags.h>
#include <evl/sem.h>

__EVL_BEGIN

/* The play of the line puts the semaphore, posts its own bit to the flag group, or does nothing. */
int evl_line_puts_sem(int line, struct evl_sem *sem);
int evl_line_posts_flags(int line, struct evl_flags *flg);
int evl_line_does_nothing(int line);

/* A register of 8 bytes of a device: the console is 0, the mailbox 1, the pins 2. docs/FORMATS.md has the registers. */
static inline unsigned long evl_load_register(int device, int number)
{
	return ((volatile unsigned long *)(0x10000000UL + 0x1000UL * device))[number];
}

static inline void evl_store_register(int device, int number, unsigned long value)
{
	((volatile unsigned long *)(0x10000000UL + 0x1000UL * device))[number] = value;
}

__EVL_END

#endif
