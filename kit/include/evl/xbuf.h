/* evl_create_xbuf evl_new_xbuf evl_open_xbuf */
#error "<evl/xbuf.h> isn't here: there are no cross-buffers, since threads of both stages share one memory; use evl_sem, which either stage may put"
