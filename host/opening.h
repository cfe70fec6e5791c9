/*
 * opening.h: frames of the opening feed and the published widths, for C programs.
 *
 * Link the static library, and a C library for its memcpy:
 *
 *     host/library
 *     cc -I host program.c target/staticlib/libhost.a
 *
 * No function allocates, keeps a state, or calls any other function but memcpy. Each gives one defined answer for
 * every input, so nothing has to be checked before a call, except what C itself cannot say:
 *
 *   - A pointer and the number after it are a run of that many elements, all of which may be read (and written, where
 *     the pointer is not const) during the call. Only where the number is 0 may the pointer be null.
 *   - What a call writes (buffer, numbers) overlaps nothing else that is passed to the same call, and no other thread
 *     uses it meanwhile.
 *
 * A frame is at most 65,535 bytes: a header of 8 bytes, and then its messages one behind the other. All numbers are
 * unsigned, least byte first. Places count bytes from the start of the frame, from 0. A price counts ten-thousandths
 * of a dollar: 1,025,000 is $102.50.
 *
 *     header  at 0, 2 bytes: length of the whole frame; at 2, 1 byte: count of messages; at 3: unit; at 4: sequence
 *     message at 0, 1 byte: its length, which counts itself; at 1, 1 byte: its type; then its fields
 *
 * An update (type 0xD1, 64 bytes) says how a series would open now, a summary (type 0x96, 27 bytes) how it opened.
 * A later version may let a message grow at its end, and may send new types: both are read here without a fault.
 */
#ifndef OPENING_H
#define OPENING_H

#include <stddef.h>
#include <stdint.h>

#ifdef __cplusplus
extern "C" {
#endif

/* ---- Reading ---------------------------------------------------------------------------------------------------- */

/* What opening_read found. */
enum opening_kind {
    OPENING_END = 0,     /* no message is left */
    OPENING_UPDATE = 1,  /* an update */
    OPENING_SUMMARY = 2, /* a summary */
    OPENING_UNKNOWN = 3, /* a message of another type: step over it */
    OPENING_FAULT = 4,   /* the frame is damaged: nothing behind this can be read */
    OPENING_TOO_FEW = 5  /* fewer than OPENING_NUMBERS places were given; nothing was written */
};

/* Where opening_read writes each number. A number that has no meaning for a kind is 0. */
enum opening_number {
    OPENING_NEXT = 0,          /* the place to pass to the next call */
    OPENING_LEFT = 1,          /* the count to pass to the next call */
    OPENING_PLACE = 2,         /* where the message begins, or where the fault lies */
    OPENING_LENGTH = 3,        /* the message's length in bytes */
    OPENING_SYMBOL = 4,        /* update, summary: where the eight bytes of its symbol begin */
    OPENING_OFFSET = 5,        /* update, summary: nanoseconds since the feed's last time message */
    OPENING_AUCTION = 6,       /* update, summary: the letter of the auction, 'G', 'O', 'H' or 'V' */
    OPENING_PRICE = 7,         /* update: the reference price; summary: the opening price */
    OPENING_CONTRACTS = 8,     /* summary: contracts that were opened */
    OPENING_BUY = 9,           /* update: contracts to buy */
    OPENING_SELL = 10,         /* update: contracts to sell */
    OPENING_INDICATIVE = 11,   /* update: the indicative price */
    OPENING_AUCTION_ONLY = 12, /* update: the auction-only price */
    OPENING_CONDITION = 13,    /* update: the letter of the condition; any byte */
    OPENING_BID = 14,          /* update: the composite bid */
    OPENING_OFFER = 15,        /* update: the composite offer */
    OPENING_FAULT_NUMBER = 16, /* fault: one of enum opening_fault */
    OPENING_FAULT_LAYER = 17,  /* fault: one of enum opening_layer */
    OPENING_NUMBERS = 18       /* how many there are */
};

/* What is wrong with a frame. Of several, the smallest is answered; messages are looked at in order. */
enum opening_fault {
    OPENING_BAD_HEADER = 30, /* under 8 bytes, or the header's length is not the number of bytes given; at place 0 */
    OPENING_BAD_LENGTH = 31, /* a message's length is absent, below 2, or leads past the frame; at its start */
    OPENING_SHORT = 32,      /* an update or a summary is shorter than its layout; at its start */
    OPENING_BAD_FIELD = 33,  /* a symbol's byte is not 0x20 to 0x7E, or the auction letter is unfit; at that field */
    OPENING_LEFTOVER = 34    /* bytes are left over after the counted messages; at the first of them */
};

/* The part of a frame that a fault lies in. */
enum opening_layer {
    OPENING_IN_FRAME = 1,   /* 30 and 34 */
    OPENING_IN_MESSAGE = 2, /* 31 and 32 */
    OPENING_IN_FIELD = 3    /* 33 */
};

/*
 * Reads one message of the frame of `size` bytes, and returns its enum opening_kind.
 *
 * A `place` of 0 starts the frame: its header is checked, `left` is not looked at, and the first message is read. Any
 * other `place` goes on there, with `left` messages still counted. The first OPENING_NUMBERS of `numbers` are written;
 * those behind them stay as they were. At the end and at a fault the numbers to pass next are those that were passed,
 * so that the same call gives the same answer again.
 *
 *     uint64_t m[OPENING_NUMBERS] = {0};
 *     uint32_t kind;
 *     while ((kind = opening_read(frame, size, m[OPENING_NEXT], (uint8_t)m[OPENING_LEFT], m, OPENING_NUMBERS)) != OPENING_END) {
 *         if (kind == OPENING_FAULT) {
 *             ...
 *             break;
 *         }
 *         ...
 *     }
 */
uint32_t opening_read(const uint8_t *frame, size_t size, uint64_t place, uint8_t left, uint64_t *numbers, size_t places);

/* ---- Writing ---------------------------------------------------------------------------------------------------- */

/* What the writing functions answer. Of both refusals, 35 is answered. A refusal leaves the buffer as it was. */
enum opening_answer {
    OPENING_DONE = 0,
    OPENING_NO_ROOM = 35, /* past the buffer, past OPENING_MAX_FRAME, or a 256th message; or no frame to add to: the header's length is under 8 */
    OPENING_UNFIT = 36    /* the symbol is not eight bytes of 0x20 to 0x7E, or the auction letter is not G, O, H or V */
};

enum {
    OPENING_SYMBOL_SIZE = 8, /* a symbol has blanks behind it to its eight bytes */
    OPENING_MAX_FRAME = 1500 /* no frame is written longer than this */
};

/* Begins a frame without a message at the start of `buffer`: OPENING_DONE, or OPENING_NO_ROOM for under 8 bytes. */
uint32_t opening_start(uint8_t *buffer, size_t size);

/* Writes an update behind the frame at the start of `buffer`, whose header then counts it. */
uint32_t opening_add_update(uint8_t *buffer, size_t size, uint32_t offset, const uint8_t *symbol, size_t symbol_size,
                            uint8_t auction, uint64_t reference, uint32_t buy, uint32_t sell, uint64_t indicative,
                            uint64_t auction_only, uint8_t condition, uint64_t bid, uint64_t offer);

/* Writes a summary behind the frame at the start of `buffer`, whose header then counts it. */
uint32_t opening_add_summary(uint8_t *buffer, size_t size, uint32_t offset, const uint8_t *symbol, size_t symbol_size,
                             uint8_t auction, uint64_t price, uint32_t contracts);

/* How many bytes of `buffer` are its frame, as the header at its start says, and at most `size`: what to send. */
uint64_t opening_frame_size(const uint8_t *buffer, size_t size);

/* ---- Widths ----------------------------------------------------------------------------------------------------- */

/* How far above a bid an offer may be by the published table; any bid has a width. */
uint64_t opening_width(uint64_t bid);

#ifdef __cplusplus
}
#endif

#endif
