/* A condition that must hold. Where it doesn't, the console says where and in which task, and the processor stops at EBREAK. */
#include <evl/absent.h>

#ifndef _ASSERT_H
#define _ASSERT_H
__EVL_BEGIN
void __evl_assert_failed(const char *condition, const char *file, int line, const char *function) __attribute__((__noreturn__));
__EVL_END
#ifndef __cplusplus
#define static_assert _Static_assert
#endif
#endif

#undef assert
#ifdef NDEBUG
#define assert(condition) ((void)0)
#else
#define assert(condition) ((condition) ? (void)0 : __evl_assert_failed(#condition, __FILE__, __LINE__, __func__))
#endif
