/* SPDX-License-Identifier: Apache-2.0 */
/*
 * The log on the standard output. A text is written whole and apart from those of other processes. Where nobody reads
 * the log, texts are dropped, and the next one that can be written says how many.
 */
#ifndef LOG_H
#define LOG_H

#include <stddef.h>

/* Before the processes part. Returns 1, or 0 with errno. */
int log_open(void);

void log_write(const char *text, size_t length);

#endif
