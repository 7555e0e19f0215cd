/* Of ASCII. */
#ifndef _CTYPE_H
#define _CTYPE_H

static inline int isdigit(int byte) { return byte >= '0' && byte <= '9'; }
static inline int isupper(int byte) { return byte >= 'A' && byte <= 'Z'; }
static inline int islower(int byte) { return byte >= 'a' && byte <= 'z'; }
static inline int isalpha(int byte) { return isupper(byte) || islower(byte); }
static inline int isalnum(int byte) { return isalpha(byte) || isdigit(byte); }
static inline int isspace(int byte) { return byte == ' ' || (byte >= '\t' && byte <= '\r'); }
static inline int isprint(int byte) { return byte >= ' ' && byte <= '~'; }
static inline int isxdigit(int byte) { return isdigit(byte) || ((byte | 32) >= 'a' && (byte | 32) <= 'f'); }
static inline int tolower(int byte) { return isupper(byte) ? byte + 32 : byte; }
static inline int toupper(int byte) { return islower(byte) ? byte - 32 : byte; }

#endif
