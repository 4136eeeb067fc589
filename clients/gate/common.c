/* Bytes, files that are waited for, notes. */
#define _GNU_SOURCE
#include "gate.h"

#include <errno.h>
#include <stdarg.h>
#include <stdio.h>
#include <stdlib.h>
#include <string.h>
#include <time.h>
#include <unistd.h>

double now(void)
{
    struct timespec time;
    clock_gettime(CLOCK_MONOTONIC, &time);
    return (double)time.tv_sec + (double)time.tv_nsec / 1e9;
}

static void print(const char *format, va_list words)
{
    fputs("boost-gate: ", stderr);
    vfprintf(stderr, format, words);
    fputc('\n', stderr);
}

void note(const char *format, ...)
{
    if (gate.notes++ >= NOTES)
        return;
    va_list words;
    va_start(words, format);
    print(format, words);
    va_end(words);
}

void fail(int status, const char *format, ...)
{
    va_list words;
    va_start(words, format);
    print(format, words);
    va_end(words);
    exit(status);
}

void *memory(void *old, size_t size)
{
    void *found = realloc(old, size);
    if (found == NULL)
        fail(REFUSED, "no memory");
    return found;
}

size_t held(const struct bytes *bytes)
{
    return bytes->end - bytes->begin;
}

void add(struct bytes *to, const char *bytes, size_t size)
{
    if (to->room - to->end < size && to->begin > 0) {
        memmove(to->bytes, to->bytes + to->begin, held(to));
        to->end -= to->begin;
        to->begin = 0;
    }
    if (to->room - to->end < size) {
        to->room = 2 * to->room + size;
        to->bytes = memory(to->bytes, to->room);
    }
    memcpy(to->bytes + to->end, bytes, size);
    to->end += size;
}

void drop(struct bytes *from, size_t size)
{
    from->begin += size;
    if (held(from) > 0)
        return;
    from->begin = from->end = 0;
    if (from->room > ROOM_KEPT) {
        free(from->bytes);
        *from = (struct bytes){ 0 };
    }
}

void watch_for(struct watch *watch, uint32_t events)
{
    struct epoll_event event = { .events = events, .data.ptr = watch };
    if (watch->events == events || watch->file < 0)
        return;
    int how = watch->events == 0 ? EPOLL_CTL_ADD : events == 0 ? EPOLL_CTL_DEL : EPOLL_CTL_MOD;
    if (epoll_ctl(gate.epoll, how, watch->file, &event) != 0)
        fail(REFUSED, "a file cannot be waited for: %s", strerror(errno));
    watch->events = events;
}

void close_watch(struct watch *watch)
{
    watch_for(watch, 0);
    if (watch->file >= 0)
        close(watch->file);
    watch->file = -1;
}

int is(const char *text, const char *other)
{
    return strcmp(text, other) == 0;
}

int begins(const char *text, const char *with)
{
    return strncmp(text, with, strlen(with)) == 0;
}
