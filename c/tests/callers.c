/* Interrupts calls of the library by a timer, as a profiler does, and sees that the unwind tables lead from each place
 * within the library to its caller. It prints how many places it saw. */
#define _GNU_SOURCE
#include "row_mask.h"
#include <execinfo.h>
#include <signal.h>
#include <stdio.h>
#include <sys/time.h>

enum { LEN = 1 << 16, SIZE = LEN / 8 + 1, WANTED = 300, DEPTH = 32 };

static uint8_t bits[SIZE], values[SIZE], out[SIZE];
static uint16_t rows[LEN], chosen[LEN];
static volatile sig_atomic_t inside, lost;

/* The caller stands in a section of its own, so that its first and last place are known. */
extern const char __start_of_caller[], __stop_of_caller[];

static int is_of_caller(const void *place) {
    return (const char *)place >= __start_of_caller && (const char *)place < __stop_of_caller;
}

/* Frame 0 is this function, and frame 1 where the kernel returns to; then comes the place that was interrupted. */
static void sample(int number) {
    void *frames[DEPTH];
    int count = backtrace(frames, DEPTH), at = 3;
    (void)number;
    if (count < 3 || is_of_caller(frames[2]))
        return;
    while (at < count && !is_of_caller(frames[at]))
        at++;
    if (at < count)
        inside++;
    else
        lost++;
}

__attribute__((noinline, section("of_caller"))) static size_t call_often(void) {
    const struct itimerval often = {{0, 500}, {0, 500}}, never = {{0, 0}, {0, 0}};
    size_t made = 0;
    setitimer(ITIMER_PROF, &often, NULL);
    while (inside + lost < WANTED) {
        made += row_mask_choose_bits(bits, SIZE, 0, LEN, values, SIZE, 3, out, SIZE);
        made += row_mask_choose_2(bits, SIZE, 0, LEN, rows, LEN, chosen, LEN);
        made += row_mask_and_count(bits, SIZE, 3, values, SIZE, 5, LEN);
    }
    setitimer(ITIMER_PROF, &never, NULL);
    return made;
}

int main(void) {
    void *frames[1];
    for (size_t i = 0; i < SIZE; i++) {
        bits[i] = (uint8_t)(i * 37 + i / 7);
        values[i] = (uint8_t)(i * 91);
    }
    backtrace(frames, 1); /* (asks for memory the first time) */
    signal(SIGPROF, sample);
    if (call_often() == 0)
        return 1;
    printf("%d places within the library, %d of them without their caller\n", (int)(inside + lost), (int)lost);
    return lost != 0;
}
