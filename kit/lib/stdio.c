/* Formatted text, and the console. */
#include "kit.h"
#include <error.h>
#include <stdio.h>
#include <stdlib.h>
#include <string.h>
#include <assert.h>
#include <unistd.h>
#include <evl/proxy.h>

/* The console device keeps 256 bytes. Above this many, each of 64 tasks may be about to store one. */
#define DEVICE_ROOM 192

struct __evl_file {
	int fd;
};

static struct __evl_file console = { 1 };
#undef stdout
#undef stderr
FILE *const stdout = &console;
FILE *const stderr = &console;

/* A byte to the console device while that has room, else by an in-band call. */
void kit_put(void *to, int byte)
{
	(void)to;
	if (call_load_device(EVL_CONSOLE, EVL_CONSOLE_BYTE) < DEVICE_ROOM)
		call_store_device(EVL_CONSOLE, EVL_CONSOLE_BYTE, byte & 255);
	else
		call_putc(byte & 255);
}

static void put_strictly(void *to, int byte)
{
	(void)to;
	call_putc(byte & 255);
}

/* ---- Formats. */

struct format {
	bool left, zero, plus, blank, alternate;
	int width, precision; /* -1: none */
	int size;	      /* bytes of the argument */
};

struct out {
	void (*put)(void *to, int byte);
	void *to;
	int count;
};

static void put(struct out *out, int byte)
{
	out->put(out->to, byte);
	out->count++;
}

static void pad(struct out *out, int byte, int count)
{
	while (count-- > 0)
		put(out, byte);
}

/* A text of this length, in its width. */
static void put_text(struct out *out, const struct format *format, const char *text, int length)
{
	if (!format->left)
		pad(out, ' ', format->width - length);
	for (int place = 0; place < length; place++)
		put(out, text[place]);
	if (format->left)
		pad(out, ' ', format->width - length);
}

/* A sign or a prefix, zeros, and digits. */
static void put_number(struct out *out, const struct format *format, const char *prefix, unsigned long number, unsigned int base, bool upper)
{
	char digits[24];
	int count = 0, zeros, length = strlen(prefix);

	for (; number; number /= base)
		digits[count++] = (upper ? "0123456789ABCDEF" : "0123456789abcdef")[number % base];
	if (count == 0 && format->precision != 0)
		digits[count++] = '0';
	zeros = format->precision > count ? format->precision - count : 0;
	if (format->zero && !format->left && format->precision < 0 && format->width > length + count)
		zeros = format->width - length - count;
	if (!format->left)
		pad(out, ' ', format->width - length - zeros - count);
	while (*prefix)
		put(out, *prefix++);
	pad(out, '0', zeros);
	while (count > 0) {
		put(out, digits[--count]);
		zeros++;
	}
	if (format->left)
		pad(out, ' ', format->width - length - zeros);
}

static const char *read_number(const char *format, int *number, va_list *arguments)
{
	if (*format == '*') {
		*number = va_arg(*arguments, int);
		return format + 1;
	}
	for (*number = 0; *format >= '0' && *format <= '9'; format++)
		*number = *number * 10 + *format - '0';
	return format;
}

/* What stands between `%` and the letter. */
static const char *read_format(const char *text, struct format *format, va_list *arguments)
{
	*format = (struct format) { .precision = -1, .size = 4 };
	for (;; text++) {
		if (*text == '-')
			format->left = true;
		else if (*text == '0')
			format->zero = true;
		else if (*text == '+')
			format->plus = true;
		else if (*text == ' ')
			format->blank = true;
		else if (*text == '#')
			format->alternate = true;
		else
			break;
	}
	text = read_number(text, &format->width, arguments);
	if (format->width < 0) {
		format->left = true;
		format->width = -format->width;
	}
	if (*text == '.')
		text = read_number(text + 1, &format->precision, arguments);
	for (;; text++) {
		if (*text == 'h')
			format->size /= 2;
		else if (*text == 'l' || *text == 'z' || *text == 'j' || *text == 't')
			format->size = 8;
		else
			return text;
	}
}

static void put_signed(struct out *out, const struct format *format, long number)
{
	number = format->size == 1 ? (signed char)number : format->size == 2 ? (short)number : number;
	put_number(out, format, number < 0 ? "-" : format->plus ? "+" : format->blank ? " " : "", number < 0 ? -(unsigned long)number : (unsigned long)number, 10, false);
}

static void put_unsigned(struct out *out, const struct format *format, unsigned long number, char letter)
{
	number = format->size == 1 ? (unsigned char)number : format->size == 2 ? (unsigned short)number : number;
	if (letter == 'u')
		put_number(out, format, "", number, 10, false);
	else if (letter == 'o')
		put_number(out, format, format->alternate && number ? "0" : "", number, 8, false);
	else
		put_number(out, format, format->alternate && number ? letter == 'x' ? "0x" : "0X" : "", number, 16, letter == 'X');
}

static void put_string(struct out *out, const struct format *format, const char *text)
{
	text = text ? text : "(null)";
	put_text(out, format, text, format->precision >= 0 ? strnlen(text, format->precision) : strlen(text));
}

static void put_one(struct out *out, const struct format *format, char letter, va_list *arguments)
{
	char byte;

	switch (letter) {
	case 'd':
	case 'i':
		put_signed(out, format, format->size == 8 ? va_arg(*arguments, long) : va_arg(*arguments, int));
		break;
	case 'u':
	case 'x':
	case 'X':
	case 'o':
		put_unsigned(out, format, format->size == 8 ? va_arg(*arguments, unsigned long) : va_arg(*arguments, unsigned int), letter);
		break;
	case 'c':
		byte = va_arg(*arguments, int);
		put_text(out, format, &byte, 1);
		break;
	case 's':
		put_string(out, format, va_arg(*arguments, const char *));
		break;
	case 'p':
		put_number(out, format, "0x", (unsigned long)va_arg(*arguments, void *), 16, false);
		break;
	case '%':
		put(out, '%');
		break;
	default:
		kit_fail("a format of printf() that isn't here: no floating point", letter);
	}
}

int kit_format(void (*sink)(void *to, int byte), void *to, const char *format, va_list arguments)
{
	struct out out = { sink, to, 0 };
	struct format one;
	va_list rest;

	va_copy(rest, arguments);
	while (*format) {
		if (*format != '%') {
			put(&out, *format++);
			continue;
		}
		format = read_format(format + 1, &one, &rest);
		put_one(&out, &one, *format, &rest);
		format += *format != 0;
	}
	va_end(rest);
	return out.count;
}

/* ---- To a buffer. */

struct buffer {
	char *next, *last;
};

static void put_in_buffer(void *to, int byte)
{
	struct buffer *buffer = to;

	if (buffer->next < buffer->last)
		*buffer->next++ = byte;
}

int vsnprintf(char *buffer, size_t size, const char *format, va_list arguments)
{
	struct buffer to = { buffer, buffer };
	int count;

	if (size > INT32_MAX)
		size = INT32_MAX;
	if (size)
		to.last += size - 1;
	count = kit_format(put_in_buffer, &to, format, arguments);
	if (size)
		*to.next = 0;
	return count;
}

#define FORMATTED(call) \
	va_list arguments; \
	int count; \
 \
	va_start(arguments, format); \
	count = call; \
	va_end(arguments); \
	return count

int snprintf(char *buffer, size_t size, const char *format, ...)
{
	FORMATTED(vsnprintf(buffer, size, format, arguments));
}

int vsprintf(char *buffer, const char *format, va_list arguments)
{
	return vsnprintf(buffer, INT32_MAX, format, arguments);
}

int sprintf(char *buffer, const char *format, ...)
{
	FORMATTED(vsprintf(buffer, format, arguments));
}

int vasprintf(char **text, const char *format, va_list arguments)
{
	int length = vsnprintf(0, 0, format, arguments);

	*text = malloc(length + 1);
	return *text ? vsnprintf(*text, length + 1, format, arguments) : -1;
}

int asprintf(char **text, const char *format, ...)
{
	FORMATTED(vasprintf(text, format, arguments));
}

/* ---- To the console: each function twice, by stores and by in-band calls. */

int evl_printf(const char *format, ...)
{
	kit_enter();
	FORMATTED(kit_format(kit_put, 0, format, arguments));
}

static int write_bytes(void (*put)(void *to, int byte), const char *text, size_t size)
{
	kit_enter();
	for (size_t place = 0; place < size; place++)
		put(0, text[place]);
	return size;
}

#define ON_CONSOLE(name, put) \
	int name(vprintf)(const char *format, va_list arguments) \
	{ \
		kit_enter(); \
		return kit_format(put, 0, format, arguments); \
	} \
	int name(printf)(const char *format, ...) \
	{ \
		FORMATTED(name(vprintf)(format, arguments)); \
	} \
	int name(vfprintf)(FILE *file, const char *format, va_list arguments) \
	{ \
		(void)file; \
		return name(vprintf)(format, arguments); \
	} \
	int name(fprintf)(FILE *file, const char *format, ...) \
	{ \
		(void)file; \
		FORMATTED(name(vprintf)(format, arguments)); \
	} \
	int name(puts)(const char *text) \
	{ \
		return write_bytes(put, text, strlen(text)) + write_bytes(put, "\n", 1); \
	} \
	int name(putchar)(int byte) \
	{ \
		char one = byte; \
 \
		write_bytes(put, &one, 1); \
		return byte & 255; \
	} \
	int name(putc)(int byte, FILE *file) \
	{ \
		(void)file; \
		return name(putchar)(byte); \
	} \
	int name(fputc)(int byte, FILE *file) \
	{ \
		(void)file; \
		return name(putchar)(byte); \
	} \
	int name(fputs)(const char *text, FILE *file) \
	{ \
		(void)file; \
		return write_bytes(put, text, strlen(text)); \
	} \
	size_t name(fwrite)(const void *text, size_t size, size_t count, FILE *file) \
	{ \
		(void)file; \
		write_bytes(put, text, size * count); \
		return count; \
	} \
	void name(perror)(const char *text) \
	{ \
		name(printf)("%s: %s\n", text, strerror(errno)); \
	}

#define PLAIN(name) name
#define STRICT(name) __evl_strict_##name

ON_CONSOLE(PLAIN, kit_put)
ON_CONSOLE(STRICT, put_strictly)

int fflush(FILE *file)
{
	(void)file;
	return 0;
}

ssize_t write(int fd, const void *text, size_t size)
{
	if (fd != STDOUT_FILENO && fd != STDERR_FILENO) {
		errno = EBADF;
		return -1;
	}
	return write_bytes(kit_put, text, size);
}

/* ---- What has failed. */

void __evl_assert_failed(const char *condition, const char *file, int line, const char *function)
{
	printf("%s:%d: %s: assertion `%s' failed in %s\n", file, line, function, condition, kit_own_name());
	for (;;)
		call_break(line);
}

void error(int status, int number, const char *format, ...)
{
	va_list arguments;

	printf("%s: ", kit_own_name());
	va_start(arguments, format);
	vprintf(format, arguments);
	va_end(arguments);
	if (number)
		printf(": %s", strerror(number));
	printf("\n");
	if (status)
		exit(status);
}
