/* A program that reaches opening_read and nothing else, to see what is linked with it. */
#include "opening.h"

void _start(void);

/* The one function that the library asks for. */
void *memcpy(void *to, const void *from, size_t size)
{
    for (size_t i = 0; i < size; i++)
        ((uint8_t *)to)[i] = ((const uint8_t *)from)[i];
    return to;
}

static volatile uint32_t kind;
static uint8_t frame[OPENING_MAX_FRAME];
static uint64_t numbers[OPENING_NUMBERS];

void _start(void)
{
    kind = opening_read(frame, sizeof frame, numbers[OPENING_NEXT], (uint8_t)numbers[OPENING_LEFT], numbers, OPENING_NUMBERS);
    for (;;)
        ;
}
