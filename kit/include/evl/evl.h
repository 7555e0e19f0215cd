/* libevl's headers, for programs on the emulated EVL core: docs/EVL.md has a line for each function. */
#ifndef _EVL_EVL_H
#define _EVL_EVL_H

#include <evl/clock.h>
#include <evl/event.h>
#include <evl/flags.h>
#include <evl/mutex.h>
#include <evl/proxy.h>
#include <evl/sched.h>
#include <evl/sem.h>
#include <evl/thread.h>
#include <evl/timer.h>

#define __EVL__ 48 /* the API that these headers follow */

struct evl_version {
	int api_level;
	int abi_level;
	const char *version_string;
};

__EVL_BEGIN

/* There is nothing to set up: evl_attach_self() calls it by itself, as libevl's does. */
int evl_init(void);
struct evl_version evl_get_version(void);

void evl_sigdebug_handler(int signal, void *info, void *context) __EVL_ABSENT("evl_sigdebug_handler() isn't here: there are no signals; the view `notices` shows what the health monitor found");

__EVL_END

#endif
