/*
 * The calls of kit/evl.h as call_NAME(), since libevl's functions have their names. `.ci/check` compares the lists.
 */
#ifndef KIT_CALLS_H
#define KIT_CALLS_H

#define evl_exit call_exit
#define evl_putc call_putc
#define evl_yield_inband call_yield_inband
#define evl_spawn call_spawn
#define evl_stall_inband call_stall_inband
#define evl_unstall_inband call_unstall_inband
#define evl_wait_line call_wait_line
#define evl_attach_self call_attach_self
#define evl_detach_self call_detach_self
#define evl_create_mutex call_create_mutex
#define evl_create_sem call_create_sem
#define evl_create_event call_create_event
#define evl_create_flags call_create_flags
#define evl_new_timer call_new_timer
#define evl_set_line call_set_line
#define evl_switch_oob call_switch_oob
#define evl_switch_inband call_switch_inband
#define evl_set_schedattr call_set_schedattr
#define evl_set_thread_mode call_set_thread_mode
#define evl_lock_mutex call_lock_mutex
#define evl_timedlock_mutex call_timedlock_mutex
#define evl_trylock_mutex call_trylock_mutex
#define evl_unlock_mutex call_unlock_mutex
#define evl_get_sem call_get_sem
#define evl_timedget_sem call_timedget_sem
#define evl_tryget_sem call_tryget_sem
#define evl_wait_event call_wait_event
#define evl_timedwait_event call_timedwait_event
#define evl_signal_event call_signal_event
#define evl_broadcast_event call_broadcast_event
#define evl_wait_flags call_wait_flags
#define evl_timedwait_flags call_timedwait_flags
#define evl_sleep_until call_sleep_until
#define evl_set_timer call_set_timer
#define evl_wait_timer call_wait_timer
#define evl_yield call_yield
#define evl_stall_oob call_stall_oob
#define evl_unstall_oob call_unstall_oob
#define evl_migrate call_migrate
#define evl_put_sem call_put_sem
#define evl_post_flags call_post_flags
#define evl_read_clock call_read_clock
#define evl_state call_state
#define evl_is_inband call_is_inband
#define evl_load_device call_load_device
#define evl_store_device call_store_device
#define evl_create call_create
#define evl_break call_break
#define evl_puts call_puts
#define evl_put_hex call_put_hex
#define evl_put_decimal call_put_decimal

#include "../evl.h"

#undef evl_exit
#undef evl_putc
#undef evl_yield_inband
#undef evl_spawn
#undef evl_stall_inband
#undef evl_unstall_inband
#undef evl_wait_line
#undef evl_attach_self
#undef evl_detach_self
#undef evl_create_mutex
#undef evl_create_sem
#undef evl_create_event
#undef evl_create_flags
#undef evl_new_timer
#undef evl_set_line
#undef evl_switch_oob
#undef evl_switch_inband
#undef evl_set_schedattr
#undef evl_set_thread_mode
#undef evl_lock_mutex
#undef evl_timedlock_mutex
#undef evl_trylock_mutex
#undef evl_unlock_mutex
#undef evl_get_sem
#undef evl_timedget_sem
#undef evl_tryget_sem
#undef evl_wait_event
#undef evl_timedwait_event
#undef evl_signal_event
#undef evl_broadcast_event
#undef evl_wait_flags
#undef evl_timedwait_flags
#undef evl_sleep_until
#undef evl_set_timer
#undef evl_wait_timer
#undef evl_yield
#undef evl_stall_oob
#undef evl_unstall_oob
#undef evl_migrate
#undef evl_put_sem
#undef evl_post_flags
#undef evl_read_clock
#undef evl_state
#undef evl_is_inband
#undef evl_load_device
#undef evl_store_device
#undef evl_create
#undef evl_break
#undef evl_puts
#undef evl_put_hex
#undef evl_put_decimal
#undef EVL_MUTEX_NORMAL
#undef EVL_MUTEX_RECURSIVE
#undef EVL_T_WOSS
#undef EVL_T_WOLI

#endif
