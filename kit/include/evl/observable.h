/* evl_create_observable evl_new_observable evl_open_observable evl_update_observable evl_read_observable */
#error "<evl/observable.h> isn't here: there are no observables; use evl_event and evl_broadcast_event()"
