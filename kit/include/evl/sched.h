#ifndef _EVL_SCHED_H
#define _EVL_SCHED_H

#include <sched.h>
#include <evl/element.h>

#define SCHED_WEAK 43

struct evl_sched_attrs {
	int sched_policy;
	int sched_priority;
	union {
		struct {
			struct timespec __sched_rr_quantum;
		} rr;
	} sched_u;
};

#define sched_rr_quantum sched_u.rr.__sched_rr_quantum

__EVL_BEGIN

int evl_set_schedattr(int efd, const struct evl_sched_attrs *attrs);
int evl_get_schedattr(int efd, struct evl_sched_attrs *attrs);
int evl_yield(void);

int evl_control_sched(int policy, const void *param, void *info, int cpu) __EVL_ABSENT("evl_control_sched() isn't here: there is no quota and no time partition");
int evl_get_cpustate(int cpu, int *statep) __EVL_ABSENT("evl_get_cpustate() isn't here: no call tells which processors there are");
int __evl_absent_class(void) __EVL_ABSENT("SCHED_QUOTA and SCHED_TP aren't here: the classes are SCHED_FIFO, SCHED_RR and SCHED_WEAK");

#define SCHED_QUOTA __evl_absent_class()
#define SCHED_TP __evl_absent_class()

__EVL_END

#endif
