#error "sys/timerfd.h isn't here: there are no files, no sockets and no processes; <evl/timer.h> has timers"
