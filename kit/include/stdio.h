/*
 * Text to the console. printf() and evl_printf() store it to the console device, so they don't go in-band; when that has
 * no room any more, after 192 bytes, the bytes go by an in-band call. With EVL_STRICT_STDIO each byte of printf() and its
 * like is an in-band call, as on Linux they demote.
 */
#ifndef _STDIO_H
#define _STDIO_H

#include <stdarg.h>
#include <sys/types.h>
#include <evl/absent.h>

typedef struct __evl_file FILE;

#define EOF (-1)
#define BUFSIZ 256

#ifdef EVL_STRICT_STDIO
#define __EVL_OUTPUT(name) __asm__("__evl_strict_" #name)
#else
#define __EVL_OUTPUT(name)
#endif

__EVL_BEGIN

extern FILE *const stdout, *const stderr;
#define stdout stdout
#define stderr stderr

int printf(const char *format, ...) __EVL_OUTPUT(printf) __EVL_FORMAT(1, 2);
int vprintf(const char *format, va_list arguments) __EVL_OUTPUT(vprintf) __EVL_FORMAT(1, 0);
int fprintf(FILE *file, const char *format, ...) __EVL_OUTPUT(fprintf) __EVL_FORMAT(2, 3);
int vfprintf(FILE *file, const char *format, va_list arguments) __EVL_OUTPUT(vfprintf) __EVL_FORMAT(2, 0);
int puts(const char *text) __EVL_OUTPUT(puts);
int putchar(int byte) __EVL_OUTPUT(putchar);
int putc(int byte, FILE *file) __EVL_OUTPUT(putc);
int fputc(int byte, FILE *file) __EVL_OUTPUT(fputc);
int fputs(const char *text, FILE *file) __EVL_OUTPUT(fputs);
size_t fwrite(const void *text, size_t size, size_t count, FILE *file) __EVL_OUTPUT(fwrite);
void perror(const char *text) __EVL_OUTPUT(perror);
int fflush(FILE *file); /* nothing is kept back */

int snprintf(char *buffer, size_t size, const char *format, ...) __EVL_FORMAT(3, 4);
int vsnprintf(char *buffer, size_t size, const char *format, va_list arguments) __EVL_FORMAT(3, 0);
int sprintf(char *buffer, const char *format, ...) __EVL_FORMAT(2, 3);
int vsprintf(char *buffer, const char *format, va_list arguments) __EVL_FORMAT(2, 0);
int asprintf(char **text, const char *format, ...) __EVL_FORMAT(2, 3); /* by malloc() */
int vasprintf(char **text, const char *format, va_list arguments) __EVL_FORMAT(2, 0);

#define __EVL_NO_FILES __EVL_ABSENT("there are no files and there is no input: only stdout and stderr, which are the console")
FILE *fopen(const char *name, const char *mode) __EVL_NO_FILES;
int fclose(FILE *file) __EVL_NO_FILES;
char *fgets(char *buffer, int size, FILE *file) __EVL_NO_FILES;
int getchar(void) __EVL_NO_FILES;
int scanf(const char *format, ...) __EVL_NO_FILES;

__EVL_END

#endif
