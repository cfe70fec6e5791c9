/* Writes a frame, reads it back, and shows what a damaged frame and a full buffer answer. */
#include "opening.h"

#include <inttypes.h>
#include <stdio.h>
#include <string.h>

static void print_price(const char *name, uint64_t price)
{
    printf(", %s $%" PRIu64 ".%02" PRIu64, name, price / 10000, price % 10000 / 100);
    if (price % 100 != 0)
        printf("%02" PRIu64, price % 100);
}

static void print_hex(const uint8_t *bytes, uint64_t size)
{
    for (uint64_t i = 0; i < size; i++)
        printf("%s%02X", i % 32 == 0 ? "\n   " : i % 8 == 0 ? "  " : " ", bytes[i]);
    printf("\n");
}

static const char *auction_name(uint64_t letter)
{
    switch (letter) {
    case 'G': return "opening of the early session";
    case 'O': return "opening of the regular session";
    case 'H': return "reopening after a halt";
    default: return "volatility opening";
    }
}

static const char *condition_name(uint64_t letter)
{
    switch (letter) {
    case 'O': return "would open";
    case 'Q': return "needs a quote";
    case 'B': return "more buyers";
    case 'S': return "more sellers";
    case 'C': return "composite market crossed";
    default: return "of no known meaning";
    }
}

static const char *fault_name(uint64_t number)
{
    switch (number) {
    case OPENING_BAD_HEADER: return "unfit header";
    case OPENING_BAD_LENGTH: return "unfit length";
    case OPENING_SHORT: return "shorter than its layout";
    case OPENING_BAD_FIELD: return "unfit symbol or auction letter";
    default: return "bytes left over";
    }
}

static const char *layer_name(uint64_t layer)
{
    return layer == OPENING_IN_FRAME ? "frame" : layer == OPENING_IN_MESSAGE ? "message" : "field";
}

static const char *answer_name(uint32_t answer)
{
    switch (answer) {
    case OPENING_DONE: return "written";
    case OPENING_NO_ROOM: return "refused, no room";
    default: return "refused, unfit symbol or auction letter";
    }
}

/* A symbol without the blanks behind it. */
static void print_series(const uint8_t *frame, const uint64_t *m)
{
    const char *symbol = (const char *)frame + m[OPENING_SYMBOL];
    int size = OPENING_SYMBOL_SIZE;
    while (size > 0 && symbol[size - 1] == ' ')
        size--;
    printf(" of %.*s (%s)", size, symbol, auction_name(m[OPENING_AUCTION]));
}

/* Prints every message of a frame, each on a line. */
static void print_frame(const uint8_t *frame, size_t size)
{
    uint64_t m[OPENING_NUMBERS] = {0};
    uint32_t kind;
    while ((kind = opening_read(frame, size, m[OPENING_NEXT], (uint8_t)m[OPENING_LEFT], m, OPENING_NUMBERS)) != OPENING_END) {
        if (kind == OPENING_FAULT) {
            printf("  fault %" PRIu64 " (%s) in the %s at byte %" PRIu64 "\n", m[OPENING_FAULT_NUMBER],
                   fault_name(m[OPENING_FAULT_NUMBER]), layer_name(m[OPENING_FAULT_LAYER]), m[OPENING_PLACE]);
            return;
        }
        printf("  bytes %" PRIu64 " to %" PRIu64 ", %" PRIu64 " messages left: ", m[OPENING_PLACE],
               m[OPENING_PLACE] + m[OPENING_LENGTH] - 1, m[OPENING_LEFT]);
        if (kind == OPENING_UPDATE) {
            printf("update");
            print_series(frame, m);
            print_price("reference", m[OPENING_PRICE]);
            printf(", buy %" PRIu64 ", sell %" PRIu64, m[OPENING_BUY], m[OPENING_SELL]);
            print_price("indicative", m[OPENING_INDICATIVE]);
            print_price("auction-only", m[OPENING_AUCTION_ONLY]);
            printf(", condition %c (%s)", (char)m[OPENING_CONDITION], condition_name(m[OPENING_CONDITION]));
            print_price("bid", m[OPENING_BID]);
            print_price("offer", m[OPENING_OFFER]);
            printf(", offset %" PRIu64 " ns\n", m[OPENING_OFFSET]);
        } else if (kind == OPENING_SUMMARY) {
            printf("summary");
            print_series(frame, m);
            print_price("price", m[OPENING_PRICE]);
            printf(", contracts %" PRIu64 ", offset %" PRIu64 " ns\n", m[OPENING_CONTRACTS], m[OPENING_OFFSET]);
        } else {
            printf("unknown, of type 0x%02X, stepped over\n", frame[m[OPENING_PLACE] + 1]);
        }
    }
    printf("  end\n");
}

static uint32_t add_update(uint8_t *buffer, size_t size, const char *symbol, uint8_t auction)
{
    return opening_add_update(buffer, size, 447000, (const uint8_t *)symbol, strlen(symbol), auction, 1025000, 75, 90,
                              1025000, 1024500, 'O', 1020000, 1030050);
}

static uint32_t add_summary(uint8_t *buffer, size_t size, const char *symbol, uint8_t auction)
{
    return opening_add_summary(buffer, size, 448125, (const uint8_t *)symbol, strlen(symbol), auction, 1025000, 75);
}

int main(void)
{
    uint8_t buffer[128];
    uint32_t answers[3];

    answers[0] = opening_start(buffer, sizeof buffer);
    answers[1] = add_update(buffer, sizeof buffer, "00mEVO  ", 'O');
    answers[2] = add_summary(buffer, sizeof buffer, "00mEVO  ", 'O');
    printf("A frame is begun, an update and a summary are added: %s, %s, %s.\n", answer_name(answers[0]),
           answer_name(answers[1]), answer_name(answers[2]));

    uint64_t size = opening_frame_size(buffer, sizeof buffer);
    printf("The frame has %" PRIu64 " bytes:", size);
    print_hex(buffer, size);
    printf("It reads back as\n");
    print_frame(buffer, (size_t)size);

    printf("\nWhat is not written, and leaves the buffer as it was:\n");
    uint32_t answer = add_update(buffer, sizeof buffer, "00mEVO  ", 'O');
    printf("  %" PRIu32 " %s: an update more, in %zu bytes\n", answer, answer_name(answer), sizeof buffer);
    answer = add_update(buffer, sizeof buffer, "00mEVO  ", 'X');
    printf("  %" PRIu32 " %s: the same, with the letter X\n", answer, answer_name(answer));
    answer = add_summary(buffer, sizeof buffer, "00mEVO  ", 'X');
    printf("  %" PRIu32 " %s: a summary with the letter X\n", answer, answer_name(answer));
    answer = add_summary(buffer, sizeof buffer, "00mEVO", 'O');
    printf("  %" PRIu32 " %s: a summary with a symbol of six bytes\n", answer, answer_name(answer));
    answer = opening_start(buffer, 7);
    printf("  %" PRIu32 " %s: a frame in 7 bytes\n", answer, answer_name(answer));
    printf("The frame still has %" PRIu64 " bytes.\n", opening_frame_size(buffer, sizeof buffer));

    printf("\nWith type 0x77 in place of the update's:\n");
    buffer[9] = 0x77;
    print_frame(buffer, (size_t)size);
    buffer[9] = 0xD1;

    printf("With a blank in place of the summary's auction letter:\n");
    buffer[86] = ' ';
    print_frame(buffer, (size_t)size);
    buffer[86] = 'O';

    printf("With one message counted:\n");
    buffer[2] = 1;
    print_frame(buffer, (size_t)size);
    buffer[2] = 2;

    printf("With the last byte cut off:\n");
    print_frame(buffer, (size_t)size - 1);

    static const uint64_t bids[] = {0, 19900, 20000, 50000, 50100, 100000, 200100, 500000, 1000100, 2000000, 2000100, UINT64_MAX};
    printf("\nWidths:\n");
    for (size_t i = 0; i < sizeof bids / sizeof bids[0]; i++) {
        printf("  at a bid of $%" PRIu64 ".%04" PRIu64 ": $%" PRIu64 ".%02" PRIu64 "\n", bids[i] / 10000, bids[i] % 10000,
               opening_width(bids[i]) / 10000, opening_width(bids[i]) % 10000 / 100);
    }
    return 0;
}
