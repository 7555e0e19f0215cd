/* What a thread can learn about itself and others: stage, CPU, class and priority. */
#include <errno.h>
#include <error.h>
#include <pthread.h>
#include <stdio.h>
#include <unistd.h>
#include <evl/sem.h>
#include <evl/thread.h>

static struct evl_sem told, go;
static int other_efd;

#define EXPECT(condition) \
	do { \
		if (!(condition)) \
			error(1, 0, "line %d: %s", __LINE__, #condition); \
	} while (0)

static void *other(void *arg)
{
	(void)arg;
	other_efd = evl_attach_self("other:%d", getpid());
	EXPECT(other_efd >= 0 && other_efd == evl_get_self());
	EXPECT(evl_put_sem(&told) == 0);
	EXPECT(evl_get_sem(&go) == 0);
	return NULL;
}

static void look_at_self(int efd)
{
	struct evl_sched_attrs attrs;
	struct evl_thread_state state;

	EXPECT(evl_is_inband());
	EXPECT(evl_switch_oob() == 0);
	EXPECT(!evl_is_inband());
	EXPECT(evl_get_state(efd, &state) == 0 && state.cpu == 0);
	EXPECT(evl_switch_inband() == 0);
	EXPECT(evl_is_inband());
	EXPECT(evl_get_schedattr(efd, &attrs) == 0);
	EXPECT(attrs.sched_policy == SCHED_FIFO && attrs.sched_priority == 7);
	attrs.sched_priority = 100;
	EXPECT(evl_set_schedattr(efd, &attrs) == -EINVAL);
	attrs.sched_priority = 99;
	EXPECT(evl_set_schedattr(efd, &attrs) == 0);
}

static void look_at_other(void)
{
	struct evl_sched_attrs attrs;
	struct evl_thread_state state;

	EXPECT(evl_get_sem(&told) == 0);
	EXPECT(evl_get_state(other_efd, &state) == 0 && state.cpu == 1);
	attrs.sched_policy = SCHED_RR;
	attrs.sched_priority = 5;
	attrs.sched_rr_quantum.tv_sec = 0;
	attrs.sched_rr_quantum.tv_nsec = 0;
	EXPECT(evl_set_schedattr(other_efd, &attrs) == 0);
	EXPECT(evl_get_schedattr(other_efd, &attrs) == 0);
	EXPECT(attrs.sched_policy == SCHED_RR && attrs.sched_priority == 5);
	EXPECT(evl_get_schedattr(other_efd + 1, &attrs) == -EBADF);
	EXPECT(evl_put_sem(&go) == 0);
}

int main(void)
{
	struct sched_param param = { .sched_priority = 7 };
	pthread_attr_t attr;
	cpu_set_t cpus;
	pthread_t tid;
	int efd;

	EXPECT(evl_new_sem(&told, "told:%d", getpid()) >= 0);
	EXPECT(evl_new_sem(&go, "go:%d", getpid()) >= 0);
	EXPECT(pthread_setschedparam(pthread_self(), SCHED_FIFO, &param) == 0);
	EXPECT(evl_get_self() == -EPERM);
	efd = evl_attach_self("main:%d", getpid());
	EXPECT(efd >= 0);
	look_at_self(efd);

	CPU_ZERO(&cpus);
	CPU_SET(1, &cpus);
	pthread_attr_init(&attr);
	pthread_attr_setaffinity_np(&attr, sizeof(cpus), &cpus);
	EXPECT(pthread_create(&tid, &attr, other, NULL) == 0);
	look_at_other();
	EXPECT(pthread_join(tid, NULL) == 0);
	printf("states are as they should be\n");
	return 0;
}
