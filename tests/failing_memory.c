/* Loaded before the C library: refuses a program's request for memory. The variable REFUSED has four numbers: which
   request, counted from 1; 1 where each later one is refused too, until the program writes something; the descriptor on
   which the first refusal is told by a line; and 1 where it counts not from the start on, but anew from each line
   `calls` that the program writes until it writes something else. If the program aborts, it tells on the descriptor how
   many bytes were refused last, and in which calls, the innermost first. */
#include <execinfo.h>
#include <signal.h>
#include <stdio.h>
#include <stdlib.h>
#include <string.h>
#include <sys/syscall.h>
#include <unistd.h>

/* (the C library's own, by the names that it has for them too) */
void *__libc_malloc(size_t size);
void *__libc_calloc(size_t count, size_t size);
void *__libc_realloc(void *old, size_t size);

static long refused_request, requests_left;
static int refuses_rest, refusal_to, is_out_of_memory, refused_depth;
static void *refused_in[64];
static size_t refused_size;

static void tell_abort(int number) {
    (void)number;
    if (refused_depth > 0 && dprintf(refusal_to, "aborts, refused %zu bytes in\n", refused_size) > 0)
        backtrace_symbols_fd(refused_in, refused_depth, refusal_to);
}

__attribute__((constructor)) static void start(void) {
    int in_calls = 0;
    /* (which asks for memory the first time) */
    backtrace(refused_in, 1);
    signal(SIGABRT, tell_abort);
    sscanf(getenv("REFUSED"), "%ld %d %d %d", &refused_request, &refuses_rest, &refusal_to, &in_calls);
    requests_left = in_calls ? 0 : refused_request;
}

static int is_refused(size_t size) {
    static const char line[] = "request refused\n";
    int is_this = requests_left > 0 && --requests_left == 0;
    if (is_this && syscall(SYS_write, refusal_to, line, sizeof line - 1) < 0)
        abort();
    if (is_this)
        is_out_of_memory = refuses_rest;
    if (!is_this && !is_out_of_memory)
        return 0;
    refused_size = size;
    refused_depth = backtrace(refused_in, sizeof refused_in / sizeof *refused_in);
    return 1;
}

void *malloc(size_t size) {
    return is_refused(size) ? NULL : __libc_malloc(size);
}

void *calloc(size_t count, size_t size) {
    return is_refused(count * size) ? NULL : __libc_calloc(count, size);
}

void *realloc(void *old, size_t size) {
    return is_refused(size) ? NULL : __libc_realloc(old, size);
}

ssize_t write(int to, const void *bytes, size_t length) {
    static const char line[] = "calls\n";
    int is_call = length == sizeof line - 1 && memcmp(bytes, line, length) == 0;
    is_out_of_memory = 0;
    requests_left = is_call ? refused_request : 0;
    return syscall(SYS_write, to, bytes, length);
}

ssize_t __write(int to, const void *bytes, size_t length) __attribute__((alias("write")));
