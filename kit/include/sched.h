#ifndef _SCHED_H
#define _SCHED_H

#include <sys/types.h>
#include <evl/absent.h>

#define SCHED_OTHER 0
#define SCHED_FIFO 1
#define SCHED_RR 2

struct sched_param {
	int sched_priority;
};

/* A machine has at most 8 processors. */
#define CPU_SETSIZE 64

typedef struct {
	unsigned long __bits;
} cpu_set_t;

static inline unsigned long __cpu_bit(unsigned long cpu)
{
	return cpu < CPU_SETSIZE ? 1UL << cpu : 0;
}

static inline int __cpu_count(unsigned long bits)
{
	int count = 0;

	for (; bits; bits &= bits - 1)
		count++;
	return count;
}

#define CPU_ZERO(set) ((void)((set)->__bits = 0))
#define CPU_SET(cpu, set) ((void)((set)->__bits |= __cpu_bit(cpu)))
#define CPU_CLR(cpu, set) ((void)((set)->__bits &= ~__cpu_bit(cpu)))
#define CPU_ISSET(cpu, set) (((set)->__bits & __cpu_bit(cpu)) != 0)
#define CPU_EQUAL(one, other) ((one)->__bits == (other)->__bits)
#define CPU_AND(set, one, other) ((void)((set)->__bits = (one)->__bits & (other)->__bits))
#define CPU_OR(set, one, other) ((void)((set)->__bits = (one)->__bits | (other)->__bits))
#define CPU_COUNT(set) __cpu_count((set)->__bits)

__EVL_BEGIN

int sched_yield(void); /* in-band */
int sched_getcpu(void);
int sched_get_priority_min(int policy);
int sched_get_priority_max(int policy);

/* Of the calling thread: pid is 0 or its own. */
int sched_setaffinity(pid_t pid, size_t size, const cpu_set_t *set);
int sched_getaffinity(pid_t pid, size_t size, cpu_set_t *set);
int sched_setscheduler(pid_t pid, int policy, const struct sched_param *param);

__EVL_END

#endif
