/* evl_new_poll evl_add_pollfd evl_del_pollfd evl_mod_pollfd evl_poll evl_timedpoll */
#error "<evl/poll.h> isn't here: there is no polling; wait for a flag group, to which each source posts its own bit"
