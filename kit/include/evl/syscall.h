/* oob_read() reads timers. Other files aren't here. It sets errno, as libevl's does. */
#ifndef _EVL_SYSCALL_H
#define _EVL_SYSCALL_H

#include <unistd.h>
#include <linux/types.h>
#include <evl/absent.h>

__EVL_BEGIN

ssize_t oob_read(int efd, void *buffer, size_t size);

ssize_t oob_write(int efd, const void *buffer, size_t size) __EVL_ABSENT("oob_write() isn't here: there are no files; evl_printf() writes to the console");
int oob_ioctl(int efd, unsigned long request, ...) __EVL_ABSENT("oob_ioctl() isn't here: there are no drivers; <evl/machine.h> has the registers of devices");

__EVL_END

#endif
