/*
 * What a program may define by EVL_TICK_NS and EVL_STACK_SIZE, in a file of its own: the compiler would use a value that it
 * sees.
 */
extern const unsigned long __evl_tick_ns, __evl_stack_size;

__attribute__((weak)) const unsigned long __evl_tick_ns = 1000000;
__attribute__((weak)) const unsigned long __evl_stack_size = 4096;
