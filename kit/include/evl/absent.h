/*
 * What EVL or the C library has and this machine hasn't. A use of a name that is declared so is an error of the compiler,
 * which shows the reason; docs/EVL.md lists these names.
 */
#ifndef _EVL_ABSENT_H
#define _EVL_ABSENT_H

#ifdef __cplusplus
#define __EVL_BEGIN extern "C" {
#define __EVL_END }
#else
#define __EVL_BEGIN
#define __EVL_END
#endif

#if defined(__clang__) || __GNUC__ >= 12
#define __EVL_ABSENT(reason) __attribute__((__unavailable__(reason)))
#else
#define __EVL_ABSENT(reason) __attribute__((__error__(reason)))
#endif
#define __EVL_FORMAT(text, first) __attribute__((__format__(__printf__, text, first)))

#endif
