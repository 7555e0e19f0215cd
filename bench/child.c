/* Runs a program, its standard output to nowhere, and says what it took: the microseconds of processor time, user and
   system, the most memory that it held, in units of 2^10 bytes, and its page faults that read no disk. What the kernel
   counts for a process begins with what its parent held, and this one holds little. The fourth number is the pace of the
   processor, the slower of before and after: the nanoseconds that a loop of independent additions takes. Where another
   program shares the core it takes nearly twice as long. */

#include <fcntl.h>
#include <stdio.h>
#include <sys/resource.h>
#include <sys/wait.h>
#include <time.h>
#include <unistd.h>

#define LAPS 1000000

static void become(char **words) {
    int nowhere = open("/dev/null", O_WRONLY);
    if (nowhere >= 0 && dup2(nowhere, STDOUT_FILENO) >= 0) {
        close(nowhere);
        execv(words[0], words);
    }
    perror(words[0]);
    _exit(127);
}

static long long microseconds(struct timeval time) {
    return time.tv_sec * 1000000LL + time.tv_usec;
}

static long long nanoseconds(void) {
    struct timespec time;
    clock_gettime(CLOCK_PROCESS_CPUTIME_ID, &time);
    return time.tv_sec * 1000000000LL + time.tv_nsec;
}

/* Four chains of additions, so that a core of its own does about four a cycle. */
static long long pace(void) {
    unsigned long a = 0, b = 0, c = 0, d = 0;
    long long start = nanoseconds();
    for (long lap = 0; lap < LAPS; lap++) {
        a += lap, b += lap, c += lap, d += lap;
        __asm__ volatile("" : "+r"(a), "+r"(b), "+r"(c), "+r"(d));
        a += lap, b += lap, c += lap, d += lap;
        __asm__ volatile("" : "+r"(a), "+r"(b), "+r"(c), "+r"(d));
    }
    return nanoseconds() - start;
}

int main(int count, char **words) {
    struct rusage usage;
    int status;
    pid_t child;
    long long before, after;
    if (count < 2) {
        return 126;
    }
    before = pace();
    child = fork();
    if (child == 0) {
        become(words + 1);
    }
    if (child < 0 || wait4(child, &status, 0, &usage) != child) {
        perror("child");
        return 126;
    }
    if (!WIFEXITED(status)) {
        fprintf(stderr, "child: the program was stopped by signal %d\n", WTERMSIG(status));
        return 126;
    }
    after = pace();
    printf("%lld %ld %ld %lld\n", microseconds(usage.ru_utime) + microseconds(usage.ru_stime), usage.ru_maxrss,
           usage.ru_minflt, before < after ? after : before);
    return WEXITSTATUS(status);
}
