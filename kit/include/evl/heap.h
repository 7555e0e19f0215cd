/* evl_init_heap evl_extend_heap evl_destroy_heap evl_alloc_block evl_free_block evl_check_block evl_heap_raw_size evl_heap_size evl_heap_used */
#error "<evl/heap.h> isn't here: there are no heaps; malloc() has one, in-band"
