#ifndef _UNISTD_H
#define _UNISTD_H

#include <sys/types.h>
#include <evl/absent.h>

#define STDIN_FILENO 0
#define STDOUT_FILENO 1
#define STDERR_FILENO 2

__EVL_BEGIN

/* They go in-band, as Linux's do; evl_usleep() doesn't. */
int usleep(useconds_t microseconds);
unsigned int sleep(unsigned int seconds);

pid_t getpid(void); /* 1 */
pid_t gettid(void); /* 1 and the number of the task */
int close(int fd);  /* of a timer, an element or a thread: its number isn't given again */
ssize_t write(int fd, const void *text, size_t size); /* to 1 or 2, which are the console */
void _exit(int status) __attribute__((__noreturn__));

ssize_t read(int fd, void *buffer, size_t size) __EVL_ABSENT("read() isn't here: there is no input and there are no files; a timer is read by oob_read()");
int pause(void) __EVL_ABSENT("pause() isn't here: there are no signals; join the threads");
long sysconf(int name) __EVL_ABSENT("sysconf() isn't here: no call tells the number of processors");
pid_t fork(void) __EVL_ABSENT("fork() isn't here: all tasks are threads of one program");

__EVL_END

#endif
