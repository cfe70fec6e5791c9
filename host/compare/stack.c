/* How deep opening_read goes: it is run on a painted stack, on frames of every kind and fault, beside a function that
 * does nothing. */
#include "opening.h"

#include <stdio.h>
#include <string.h>
#include <ucontext.h>

typedef uint32_t reader(const uint8_t *, size_t, uint64_t, uint8_t, uint64_t *, size_t);

static uint8_t stack[65536];
static ucontext_t here, there;
static reader *volatile job;
static const uint8_t *frame;
static size_t size, places;
static uint64_t place, numbers[OPENING_NUMBERS];
static uint8_t left;
static volatile uint32_t kind;

static uint32_t nothing(const uint8_t *f, size_t n, uint64_t at, uint8_t count, uint64_t *m, size_t k)
{
    (void)f, (void)n, (void)at, (void)count, (void)m, (void)k;
    return 0;
}

static void run(void)
{
    kind = job(frame, size, place, left, numbers, places);
    swapcontext(&there, &here);
}

/* How many bytes of the stack a job changes, under one paint. */
static size_t painted(reader *which, int paint)
{
    memset(stack, paint, sizeof stack);
    getcontext(&there);
    there.uc_stack.ss_sp = stack;
    there.uc_stack.ss_size = sizeof stack;
    there.uc_link = NULL;
    makecontext(&there, run, 0);
    job = which;
    swapcontext(&here, &there);
    size_t kept = 0;
    while (kept < sizeof stack && stack[kept] == (uint8_t)paint)
        kept++;
    return sizeof stack - kept;
}

static size_t deepest(reader *which)
{
    size_t one = painted(which, 0xA5), other = painted(which, 0x5A);
    return one > other ? one : other;
}

static size_t worst;
static unsigned seen;

static void measure(const uint8_t *f, size_t n, uint64_t at, uint8_t count, size_t k)
{
    frame = f, size = n, place = at, left = count, places = k;
    /* the call's return address is part of what a call takes */
    size_t depth = deepest(opening_read) - deepest(nothing) + sizeof(void *);
    deepest(opening_read);
    seen |= 1u << kind;
    if (kind == OPENING_FAULT)
        seen |= 1u << (numbers[OPENING_FAULT_NUMBER] - OPENING_BAD_HEADER + 8);
    if (depth > worst)
        worst = depth;
}

int main(void)
{
    uint8_t f[200];
    memset(f, 0, sizeof f);
    opening_start(f, sizeof f);
    opening_add_update(f, sizeof f, 1, (const uint8_t *)"AAAAAAAA", 8, 'O', 2, 3, 4, 5, 6, 'Q', 7, 8);
    opening_add_summary(f, sizeof f, 1, (const uint8_t *)"AAAAAAAA", 8, 'O', 2, 3);
    size_t n = (size_t)opening_frame_size(f, sizeof f);
    for (size_t k = OPENING_NUMBERS - 1; k <= OPENING_NUMBERS; k++)
        for (size_t m = 0; m <= n; m++)
            for (uint64_t at = 0; at <= n; at++)
                measure(f, m == n ? n : m, at % 9 == 0 ? 0 : at, (uint8_t)(at % 3), k);
    for (size_t i = 0; i < n; i++) {
        uint8_t old = f[i];
        for (unsigned change = 1; change < 256; change += 85) {
            f[i] ^= (uint8_t)change;
            measure(f, n, 0, 0, OPENING_NUMBERS);
            measure(f, n, 8, 2, OPENING_NUMBERS);
            measure(f, n, 72, 1, OPENING_NUMBERS);
            f[i] = old;
        }
    }
    if (seen != 0x1F3F) {
        fprintf(stderr, "stack: not every kind and fault was seen: %x\n", seen);
        return 1;
    }
    printf("%zu\n", worst);
    return 0;
}
