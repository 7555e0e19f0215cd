/* evl_create_rwlock evl_new_rwlock evl_open_rwlock evl_lock_read evl_lock_write evl_unlock_read evl_unlock_write evl_trylock_read evl_trylock_write evl_close_rwlock */
#error "<evl/rwlock.h> isn't here: there are no read-write locks; use evl_mutex"
