#ifndef _ERROR_H
#define _ERROR_H

#include <evl/absent.h>

__EVL_BEGIN
/* The text, that of the errno if it isn't 0, and a newline; then exit(status) if that isn't 0. */
void error(int status, int number, const char *format, ...) __EVL_FORMAT(3, 4);
__EVL_END

#endif
