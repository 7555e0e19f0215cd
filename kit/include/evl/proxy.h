#ifndef _EVL_PROXY_H
#define _EVL_PROXY_H

#include <evl/element.h>

__EVL_BEGIN

/* To the console, without going in-band: see <stdio.h>. */
int evl_printf(const char *fmt, ...) __EVL_FORMAT(1, 2);

#define __EVL_NO_PROXY __EVL_ABSENT("proxies aren't here, since there are no files: evl_printf() writes to the console")
int evl_create_proxy(int targetfd, size_t bufsz, size_t granularity, int flags, const char *fmt, ...) __EVL_NO_PROXY;
int evl_new_proxy(int targetfd, size_t bufsz, const char *fmt, ...) __EVL_NO_PROXY;
int evl_print_proxy(int proxyfd, const char *fmt, ...) __EVL_NO_PROXY;
int evl_vprint_proxy(int proxyfd, const char *fmt, __builtin_va_list arguments) __EVL_NO_PROXY;

__EVL_END

#endif
