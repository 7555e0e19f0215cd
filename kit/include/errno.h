/* Linux's numbers. Functions of EVL return them negated, those of pthread.h return them, those of libc set errno. */
#ifndef _ERRNO_H
#define _ERRNO_H

#include <evl/absent.h>

#define EPERM 1
#define ENOENT 2
#define ESRCH 3
#define EINTR 4
#define EIO 5
#define ENXIO 6
#define EBADF 9
#define EAGAIN 11
#define EWOULDBLOCK EAGAIN
#define ENOMEM 12
#define EFAULT 14
#define EBUSY 16
#define EEXIST 17
#define ENODEV 19
#define EINVAL 22
#define EMFILE 24
#define ENOTTY 25
#define ENOSPC 28
#define EPIPE 32
#define EDOM 33
#define ERANGE 34
#define EDEADLK 35
#define ENAMETOOLONG 36
#define ENOSYS 38
#define EIDRM 43
#define EOVERFLOW 75
#define EOPNOTSUPP 95
#define ENOTSUP EOPNOTSUPP
#define ETIMEDOUT 110
#define ECANCELED 125
#define ESTALE 116

__EVL_BEGIN
int *__errno_location(void); /* each thread has its own */
__EVL_END

#define errno (*__errno_location())

#endif
