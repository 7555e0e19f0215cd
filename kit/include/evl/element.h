/* What all elements of EVL have. A descriptor is a number above 63; the health of a name is checked, and tools may show it. */
#ifndef _EVL_ELEMENT_H
#define _EVL_ELEMENT_H

#include <errno.h>
#include <time.h>
#include <linux/types.h>
#include <evl/absent.h>

#define EVL_CLONE_PRIVATE (0 << 16)
#define EVL_CLONE_PUBLIC (1 << 16) /* there is one program: it may be used by those that may use a private one */
#define EVL_CLONE_MASK EVL_CLONE_PUBLIC

__EVL_BEGIN

int __evl_absent_observable(void) __EVL_ABSENT("observables aren't here: EVL_CLONE_OBSERVABLE, EVL_CLONE_UNICAST");
int __evl_absent_nonblock(void) __EVL_ABSENT("EVL_CLONE_NONBLOCK isn't here: use evl_tryget_sem(), evl_trylock_mutex(), evl_trywait_flags()");

#define EVL_CLONE_OBSERVABLE __evl_absent_observable()
#define EVL_CLONE_UNICAST __evl_absent_observable()
#define EVL_CLONE_NONBLOCK __evl_absent_nonblock()

__EVL_END

/* The first argument of a list, and the second and third with what stands for them where the list is shorter. */
#define __EVL_FIRST(first, ...) (first)
#define __EVL_SECOND(list...) __EVL_SECOND_OF(list, EVL_CLOCK_MONOTONIC, 0)
#define __EVL_SECOND_OF(first, second, ...) (second)
#define __EVL_THIRD(list...) __EVL_THIRD_OF(list, 0, 0, 0)
#define __EVL_THIRD_OF(first, second, third, ...) (third)

#define __EVL_NO_OPEN __EVL_ABSENT("evl_open_*() isn't here: there is one program, whose threads share the element itself")

#endif
