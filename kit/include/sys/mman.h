/* Memory is RAM, which is never paged: locking it does nothing. There is no mmap(). */
#ifndef _SYS_MMAN_H
#define _SYS_MMAN_H

#define MCL_CURRENT 1
#define MCL_FUTURE 2

static inline int mlockall(int flags)
{
	(void)flags;
	return 0;
}

static inline int munlockall(void)
{
	return 0;
}

#endif
