#error "semaphore.h isn't here: use evl_sem of <evl/sem.h>"
