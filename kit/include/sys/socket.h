#error "sys/socket.h isn't here: there are no files, no sockets and no processes; <evl/timer.h> has timers"
