/* What the C programs use of this header. The kit has a C library to link, but no headers. */
#pragma once
#define EOF (-1)
int getchar(void);
int printf(const char *format, ...);
