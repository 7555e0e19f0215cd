/* evl_init_tube evl_get_tube_size evl_send_tube evl_receive_tube */
#error "<evl/tube.h> isn't here: there are no tubes, since RV64I has no atomic instructions; guard a queue by an evl_mutex"
