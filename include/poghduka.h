/* Poghduka's calls for C11 and C++ on x86-64: the receiving end of RakNet, proved.
 *
 * Three static libraries have them. Each stands alone, and needs memcpy and memset:
 *
 *     exports_queue     the receiver: make_new, receive, take, drop_unfinished, write_unsent, write_missing, save, restore
 *     exports_frames    frames, a datagram's head and a split's pieces: read_frames, read_frame, write_frame, write_head, write_piece
 *     exports           windows and ACKs: window_*, write_list, read_ack_*
 *
 *     bindings/libraries.sh       proves and compiles them, into target/staticlib
 *     cc -std=c11 -Iinclude main.c -Ltarget/staticlib -lexports_queue -lexports_frames -lexports
 *
 * What is proved: every call returns on every input, and what it returns and leaves in lent memory equals a definition of the protocol.
 * What is tested (bindings/compare.sh): that this header declares the structs as the libraries lay them out.
 * What is the caller's part:
 *
 * Ownership. The caller owns everything: receiver, records, store, buffers. A call borrows them until it returns and keeps no pointer;
 * there is no heap, no global and no lock. Calls on different receivers may run at the same time; calls on one receiver come one after
 * another.
 * A slice is a pointer and the number of elements behind it. The pointer is never NULL, even with no elements, and is aligned as its type.
 * Memory that a call may write overlaps nothing else that the same call is lent.
 * A bool is 0 or 1. The padding of a returned struct has no meaning.
 *
 * Stack, measured and not proved: up to 10,000 bytes a call where the receiver has at most 32 cells (a restore up to 30,000), up to 320,000
 * where it has more.
 *
 * Refusals. A refused call changes nothing that it was lent. It returns its number, and 0 in every field beside the number (only a window
 * insert returns the window as it was). Each number is given exactly on its condition, the first in the order that stands at the call.
 */
#ifndef POGHDUKA_H
#define POGHDUKA_H

#include <stdbool.h>
#include <stddef.h>
#include <stdint.h>

#ifdef __cplusplus
extern "C" {
#define POGHDUKA_LAYOUT(fact) static_assert(fact, #fact)
#else
#define POGHDUKA_LAYOUT(fact) _Static_assert(fact, #fact)
#endif

/* ---- numbers */

enum {
    POGHDUKA_DONE = 0,             /* nothing is refused */
    POGHDUKA_CUT = 1,              /* a datagram below 4 bytes; a frame, a header or a record that is cut off */
    POGHDUKA_TOO_LONG = 2,         /* a datagram above 1,500 bytes */
    POGHDUKA_FIRST_BYTE = 3,       /* the first byte is no datagram's (80 to 8D), or no ACK's or NACK's (C0, A0) */
    POGHDUKA_OLD = 4,              /* the number was accepted before */
    POGHDUKA_BEYOND = 5,           /* the number is above low + 2,048 */
    POGHDUKA_UNSENT_FULL = 6,      /* 1,024 acknowledgements are unsent */
    POGHDUKA_RELIABLE_BEYOND = 7,  /* a reliable number is above low + 2,048 */
    POGHDUKA_NO_CELLS = 8,         /* the cells don't suffice for the datagram's bodies */
    POGHDUKA_UNSOUND = 9,          /* slice lengths that don't fit, a receiver or records that no call made, or no profile's number */
    POGHDUKA_RECORD_TYPE = 10,     /* a record's first byte is neither 00 nor 01 */
    POGHDUKA_REVERSED = 11,        /* a Range's last is below its first */
    POGHDUKA_NO_ROOM = 12,         /* the output or the joining buffer is too short */
    POGHDUKA_TOO_LARGE = 13,       /* a number of 2^24 or more, or a list of more than 2,048 numbers */
    POGHDUKA_NOT_ASCENDING = 14,   /* a list that isn't strictly ascending */
    POGHDUKA_OVER_LIMIT = 15,      /* a frame's field or body is over its limit, or a field that its kind lacks isn't 0 */
    POGHDUKA_BAD_MTU = 16,         /* an mtu outside 61 to 1,500 */
    POGHDUKA_FITS_ONE_CHUNK = 17,  /* the data needs no split */
    POGHDUKA_TOO_MANY_PIECES = 18, /* more than 1,024 pieces */
    POGHDUKA_BEYOND_LAST = 19,     /* there is no piece k */
    POGHDUKA_NONE_READY = 20,      /* no message is ready */
    POGHDUKA_BAD_FORM = 21,        /* an image that is cut off, or has bytes after its last section */
    POGHDUKA_NOT_RESTORABLE = 22   /* an image that no receiver of these calls has, or that needs more cells than are lent */
};

/* ---- profiles: who sends. A receiver is made for one and keeps it; frames are read and written under one. */

enum {
    POGHDUKA_CONSOLE = 0, /* kind 4 has neither order number nor channel; a length in bits is rounded down to whole bytes */
    POGHDUKA_CPP = 1      /* hosts on RakNet's own C++ library: kind 4 has both, and a length in bits is rounded up */
};

/* ---- sizes */

enum {
    POGHDUKA_MAX_CELLS = 4096,     /* a receiver has 1 to 4,096 cells */
    POGHDUKA_CELL_BYTES = 1500,    /* and exactly so many bytes of store for each */
    POGHDUKA_MAX_DATAGRAM = 1500,
    POGHDUKA_MAX_BODY = 8191,      /* of a frame that is written */
    POGHDUKA_HEAD_BYTES = 4,       /* a datagram's head; its frames begin here */
    POGHDUKA_PIECE_HEADER = 20,    /* the header of a frame that write_piece writes; at most mtu - 60 bytes follow */
    POGHDUKA_MAX_MISSING = 2048,   /* numbers that a window can lack */
    POGHDUKA_UNSENT_BYTES = 4099,  /* an output that always has room for the unsent, */
    POGHDUKA_MISSING_BYTES = 4784, /* for the missing, */
    POGHDUKA_LIST_BYTES = 8195,    /* for any list, */
    POGHDUKA_IMAGE_BYTES = 9284,   /* and for an image: so many, */
    POGHDUKA_IMAGE_CELL_BYTES = 1572 /* and so many more for each cell in use */
};

/* ---- the receiver: library exports_queue */

/* The numbers accepted: all below low, and of the 2,048 above low those whose bit is set. */
typedef struct {
    uint32_t low;
    uint8_t bits[256];
} PoghdukaReliableWindow;

/* A channel. `newest` is one more than the newest sequence number made ready by kind 1, and by kind 4 in the C++ profile; a number below it
 * is late, and dropped. It is at most 2^24, and 0 where no such message has been ready. */
typedef struct {
    uint32_t next; /* the order number that is made ready next */
    uint32_t newest;
} PoghdukaChannel;

/* A receiver, 4,884 bytes. poghduka_make_new fills it in, the calls change it, and nobody else writes it. */
typedef struct {
    PoghdukaReliableWindow datagrams; /* datagram numbers accepted */
    PoghdukaReliableWindow reliables; /* reliable numbers accepted */
    PoghdukaChannel channels[32];
    uint32_t unsent[1024]; /* the first `pending` are datagram numbers not yet acknowledged */
    uint32_t pending;
    uint32_t newest;  /* for kind 4 in the console profile what a channel's is for kind 1 */
    uint32_t profile; /* POGHDUKA_CONSOLE or POGHDUKA_CPP; any other number is unsound */
} PoghdukaRecvQueue;

/* One record stands beside each cell, 48 bytes. poghduka_make_new fills them in, the calls change them, and nobody else writes them. */
typedef struct {
    uint32_t used; /* 0: the cell is free */
    uint32_t kind;
    uint32_t channel;
    uint32_t id;
    uint32_t index;
    uint32_t count;
    uint32_t length; /* of the body, which stands at the front of the cell's 1,500 bytes of store */
    uint32_t sequence;
    uint32_t order;
    uint32_t turn;
    uint64_t age; /* of an unfinished message: datagrams accepted since the last that a piece of it was kept from; at most 2^32 */
} PoghdukaCellRecord;

typedef struct {
    uint32_t number;
    uint32_t ready;   /* messages made ready */
    uint32_t dropped; /* frames, and joined messages, dropped */
    size_t left;      /* bytes after the last frame that fits */
} PoghdukaQueueReceived;

/* The message's bytes are the first `len` of the joining buffer where it is joined, else `len` of the store from `start` on. */
typedef struct {
    uint32_t number;
    uint8_t kind;
    uint8_t channel;
    uint32_t order;
    bool joined;
    size_t start;
    size_t len;
} PoghdukaQueueTaken;

typedef struct {
    uint32_t number;
    uint32_t freed; /* cells */
} PoghdukaQueueDropped;

/* `len` bytes were written, from the output's start on. */
typedef struct {
    uint32_t number;
    size_t len;
} PoghdukaAckWritten;

typedef struct {
    uint32_t number;
    size_t len; /* of the image, from the output's start on */
} PoghdukaQueueSaved;

/* A new receiver of `cells` cells for a profile, whatever memory held before. `store_len` is 1,500 times `cells`, also in every later call.
 * Refusals: 9. */
uint32_t poghduka_make_new(PoghdukaRecvQueue *queue, PoghdukaCellRecord *records, size_t cells, const uint8_t *store,
                           size_t store_len, uint32_t profile);

/* Takes in one datagram. Refusals: 9, 1, 2, 3, 4, 5, 6, 7, 8. */
PoghdukaQueueReceived poghduka_receive(PoghdukaRecvQueue *queue, PoghdukaCellRecord *records, size_t cells, uint8_t *store,
                                       size_t store_len, const uint8_t *datagram, size_t datagram_len);

/* Hands out the message that became ready first, and frees its cells. Its bytes stay where they are: in the store until the next
 * poghduka_receive, in the joining buffer until the next poghduka_take. A joining buffer as long as the store is always long enough.
 * Refusals: 9, 20, 12. */
PoghdukaQueueTaken poghduka_take(const PoghdukaRecvQueue *queue, PoghdukaCellRecord *records, size_t cells, const uint8_t *store,
                                 size_t store_len, uint8_t *joined, size_t joined_len);

/* Drops every unfinished message whose kind carries no reliable number, and since whose last kept piece more than n further datagrams were
 * accepted. Its cells are free then, and `freed` says how many they are. n is any number. Refusals: 9. */
PoghdukaQueueDropped poghduka_drop_unfinished(const PoghdukaRecvQueue *queue, PoghdukaCellRecord *records, size_t cells,
                                              const uint8_t *store, size_t store_len, uint32_t n);

/* The unsent acknowledgements as an ACK; none is unsent afterwards. Refusals: 9, 12. */
PoghdukaAckWritten poghduka_write_unsent(PoghdukaRecvQueue *queue, uint8_t *out, size_t out_len);

/* The datagram numbers missing, as a NACK. Refusals: 9, 12. */
PoghdukaAckWritten poghduka_write_missing(const PoghdukaRecvQueue *queue, uint8_t *out, size_t out_len);

/* Writes an image of the receiver, with all that its cells hold; nothing else is changed. Receivers that hold the same have the same image,
 * wherever their cells lie. Refusals: 9, 12. */
PoghdukaQueueSaved poghduka_save(const PoghdukaRecvQueue *queue, const PoghdukaCellRecord *records, size_t cells, const uint8_t *store,
                                 size_t store_len, uint8_t *out, size_t out_len);

/* Restores the receiver of an image, whatever receiver and records held before; `cells` may differ from the saved receiver's. Of the store
 * only the bodies are written. Refusals: 9 (for the lengths alone), 21, 22. */
uint32_t poghduka_restore(PoghdukaRecvQueue *queue, PoghdukaCellRecord *records, size_t cells, uint8_t *store, size_t store_len,
                          const uint8_t *image, size_t image_len);

/* ---- frames, a datagram's head and a split's pieces: library exports_frames */

/* Where a piece stands in its message. */
typedef struct {
    uint32_t count;
    uint16_t id;
    uint32_t index;
} PoghdukaFragmentMeta;

/* What a frame's header says. A field that the kind lacks in its profile is 0, and so are the three of `meta` where the frame is no
 * piece. */
typedef struct {
    uint8_t kind;
    uint32_t reliable;
    uint32_t sequence;
    uint32_t order;
    uint8_t channel;
    bool piece;
    PoghdukaFragmentMeta meta;
} PoghdukaFrame;

/* A frame, and where its body stands in the bytes read. */
typedef struct {
    PoghdukaFrame frame;
    size_t start;
    size_t len;
} PoghdukaPlaced;

/* `next` is the place after the frame. */
typedef struct {
    uint32_t number;
    PoghdukaPlaced placed;
    size_t next;
} PoghdukaFrameFound;

typedef struct {
    uint32_t number;
    size_t next;
} PoghdukaFrameWritten;

typedef struct {
    uint32_t number;
    size_t count; /* frames, one after the other */
    size_t left;  /* bytes from the first that doesn't fit */
} PoghdukaFramesFound;

/* How many frames stand from place `at` on. Refusals: 9, for the profile. */
PoghdukaFramesFound poghduka_read_frames(uint32_t profile, const uint8_t *s, size_t len, size_t at);

/* The frame at place `at`: 4 for a datagram's first, then each time `next`. Refusals: 9, for the profile; 1. */
PoghdukaFrameFound poghduka_read_frame(uint32_t profile, const uint8_t *s, size_t len, size_t at);

/* Writes a frame from place `at` on; `next` is the place after it. Refusals: 9, for the profile; 15, 12. */
PoghdukaFrameWritten poghduka_write_frame(uint32_t profile, uint8_t *out, size_t out_len, size_t at, PoghdukaFrame frame,
                                          const uint8_t *body, size_t body_len);

/* Writes 84 and the number, four bytes. Refusals: 13, 12. */
uint32_t poghduka_write_head(uint8_t *out, size_t out_len, uint32_t number);

/* Writes piece k, from 0, of the data split for this mtu as a frame of kind 3 at the output's start: the header, POGHDUKA_PIECE_HEADER
 * bytes, then mtu - 60 bytes of the data, or for the last piece what is left of them. `next` is how many bytes were written. The frame is
 * the same under both profiles.
 * To send a message: data of at most mtu - 60 bytes is not split (17); poghduka_write_frame writes it whole, as kind 3. Else call with
 * k = 0, 1, 2 and so on as long as nothing is refused. 19 then says that every piece was written (16, 17 and 18 come for every k). At 12
 * call with the same k and another output. To put several pieces into one datagram, lend the rest of the output, from `next` on. A datagram
 * of POGHDUKA_HEAD_BYTES + POGHDUKA_PIECE_HEADER + mtu - 60 bytes has room for one.
 * All pieces of a message have one id, which no other message has that may still be unfinished, one channel, and the channel's next order
 * number. Each piece has a reliable number of its own. Refusals: 16, 17, 18, 19, 15, 12. */
PoghdukaFrameWritten poghduka_write_piece(const uint8_t *data, size_t data_len, uint16_t mtu, uint16_t id, uint32_t k, uint8_t channel,
                                          uint32_t order, uint32_t reliable, uint8_t *out, size_t out_len);

/* ---- windows and ACKs: library exports */

typedef struct {
    uint32_t number;
    PoghdukaReliableWindow window; /* afterwards; as it was on a refusal */
} PoghdukaWindowInsert;

/* Where the next record of an ACK or NACK stands, and how many are left. */
typedef struct {
    size_t at;
    uint32_t left;
} PoghdukaAckCursor;

typedef struct {
    uint32_t number;
    bool nack;
    PoghdukaAckCursor records; /* at the first record */
} PoghdukaAckHeaderFound;

/* `found` is false where no record is left, and all else is then 0. A Single has its number as first and as last. */
typedef struct {
    uint32_t number;
    bool found;
    bool range;
    uint32_t first;
    uint32_t last;             /* included */
    PoghdukaAckCursor records; /* after this record */
} PoghdukaAckRecordFound;

/* A window that has accepted nothing. */
PoghdukaReliableWindow poghduka_window_new(void);

/* Accepts number n. Refusals: 13, 4, 5. */
PoghdukaWindowInsert poghduka_window_insert(PoghdukaReliableWindow window, uint32_t n);

/* Stores the numbers never accepted below the highest accepted, ascending, as far as the list goes, and returns how many it stored. */
size_t poghduka_window_missing(PoghdukaReliableWindow window, uint32_t *list, size_t list_len);

/* Writes a strictly ascending list of numbers as an ACK or a NACK. Refusals: 13, 14, 12. */
PoghdukaAckWritten poghduka_write_list(uint8_t *out, size_t out_len, bool nack, const uint32_t *numbers, size_t numbers_len);

/* The header of an ACK or NACK. Refusals: 1, 3. */
PoghdukaAckHeaderFound poghduka_read_ack_header(const uint8_t *s, size_t len);

/* The record that the cursor stands at; begin with the header's, go on with each record's. Refusals: 1, 10, 11. */
PoghdukaAckRecordFound poghduka_read_ack_record(const uint8_t *s, size_t len, PoghdukaAckCursor records);

/* ---- the layout */

#define POGHDUKA_SIZE(type, size) POGHDUKA_LAYOUT(sizeof(type) == size)
#define POGHDUKA_FIELD(type, field, offset) POGHDUKA_LAYOUT(offsetof(type, field) == offset)

POGHDUKA_LAYOUT(sizeof(size_t) == 8 && sizeof(bool) == 1);

POGHDUKA_SIZE(PoghdukaReliableWindow, 260);
POGHDUKA_FIELD(PoghdukaReliableWindow, bits, 4);

POGHDUKA_SIZE(PoghdukaChannel, 8);
POGHDUKA_FIELD(PoghdukaChannel, newest, 4);

POGHDUKA_SIZE(PoghdukaRecvQueue, 4884);
POGHDUKA_FIELD(PoghdukaRecvQueue, reliables, 260);
POGHDUKA_FIELD(PoghdukaRecvQueue, channels, 520);
POGHDUKA_FIELD(PoghdukaRecvQueue, unsent, 776);
POGHDUKA_FIELD(PoghdukaRecvQueue, pending, 4872);
POGHDUKA_FIELD(PoghdukaRecvQueue, newest, 4876);
POGHDUKA_FIELD(PoghdukaRecvQueue, profile, 4880);

POGHDUKA_SIZE(PoghdukaCellRecord, 48);
POGHDUKA_FIELD(PoghdukaCellRecord, kind, 4);
POGHDUKA_FIELD(PoghdukaCellRecord, channel, 8);
POGHDUKA_FIELD(PoghdukaCellRecord, id, 12);
POGHDUKA_FIELD(PoghdukaCellRecord, index, 16);
POGHDUKA_FIELD(PoghdukaCellRecord, count, 20);
POGHDUKA_FIELD(PoghdukaCellRecord, length, 24);
POGHDUKA_FIELD(PoghdukaCellRecord, sequence, 28);
POGHDUKA_FIELD(PoghdukaCellRecord, order, 32);
POGHDUKA_FIELD(PoghdukaCellRecord, turn, 36);
POGHDUKA_FIELD(PoghdukaCellRecord, age, 40);

POGHDUKA_SIZE(PoghdukaQueueReceived, 24);
POGHDUKA_FIELD(PoghdukaQueueReceived, ready, 4);
POGHDUKA_FIELD(PoghdukaQueueReceived, dropped, 8);
POGHDUKA_FIELD(PoghdukaQueueReceived, left, 16);

POGHDUKA_SIZE(PoghdukaQueueTaken, 32);
POGHDUKA_FIELD(PoghdukaQueueTaken, kind, 4);
POGHDUKA_FIELD(PoghdukaQueueTaken, channel, 5);
POGHDUKA_FIELD(PoghdukaQueueTaken, order, 8);
POGHDUKA_FIELD(PoghdukaQueueTaken, joined, 12);
POGHDUKA_FIELD(PoghdukaQueueTaken, start, 16);
POGHDUKA_FIELD(PoghdukaQueueTaken, len, 24);

POGHDUKA_SIZE(PoghdukaQueueDropped, 8);
POGHDUKA_FIELD(PoghdukaQueueDropped, freed, 4);

POGHDUKA_SIZE(PoghdukaAckWritten, 16);
POGHDUKA_FIELD(PoghdukaAckWritten, len, 8);

POGHDUKA_SIZE(PoghdukaQueueSaved, 16);
POGHDUKA_FIELD(PoghdukaQueueSaved, len, 8);

POGHDUKA_SIZE(PoghdukaFragmentMeta, 12);
POGHDUKA_FIELD(PoghdukaFragmentMeta, id, 4);
POGHDUKA_FIELD(PoghdukaFragmentMeta, index, 8);

POGHDUKA_SIZE(PoghdukaFrame, 32);
POGHDUKA_FIELD(PoghdukaFrame, reliable, 4);
POGHDUKA_FIELD(PoghdukaFrame, sequence, 8);
POGHDUKA_FIELD(PoghdukaFrame, order, 12);
POGHDUKA_FIELD(PoghdukaFrame, channel, 16);
POGHDUKA_FIELD(PoghdukaFrame, piece, 17);
POGHDUKA_FIELD(PoghdukaFrame, meta, 20);

POGHDUKA_SIZE(PoghdukaPlaced, 48);
POGHDUKA_FIELD(PoghdukaPlaced, start, 32);
POGHDUKA_FIELD(PoghdukaPlaced, len, 40);

POGHDUKA_SIZE(PoghdukaFrameFound, 64);
POGHDUKA_FIELD(PoghdukaFrameFound, placed, 8);
POGHDUKA_FIELD(PoghdukaFrameFound, next, 56);

POGHDUKA_SIZE(PoghdukaFrameWritten, 16);
POGHDUKA_FIELD(PoghdukaFrameWritten, next, 8);

POGHDUKA_SIZE(PoghdukaFramesFound, 24);
POGHDUKA_FIELD(PoghdukaFramesFound, count, 8);
POGHDUKA_FIELD(PoghdukaFramesFound, left, 16);

POGHDUKA_SIZE(PoghdukaWindowInsert, 264);
POGHDUKA_FIELD(PoghdukaWindowInsert, window, 4);

POGHDUKA_SIZE(PoghdukaAckCursor, 16);
POGHDUKA_FIELD(PoghdukaAckCursor, left, 8);

POGHDUKA_SIZE(PoghdukaAckHeaderFound, 24);
POGHDUKA_FIELD(PoghdukaAckHeaderFound, nack, 4);
POGHDUKA_FIELD(PoghdukaAckHeaderFound, records, 8);

POGHDUKA_SIZE(PoghdukaAckRecordFound, 32);
POGHDUKA_FIELD(PoghdukaAckRecordFound, found, 4);
POGHDUKA_FIELD(PoghdukaAckRecordFound, range, 5);
POGHDUKA_FIELD(PoghdukaAckRecordFound, first, 8);
POGHDUKA_FIELD(PoghdukaAckRecordFound, last, 12);
POGHDUKA_FIELD(PoghdukaAckRecordFound, records, 16);

#ifdef __cplusplus
}
#endif

#endif
