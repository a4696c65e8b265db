/* Makes every call of include/poghduka.h and prints every field of every answer: what fields.rs prints, and what fields.txt has. */
#include <inttypes.h>
#include <stdio.h>
#include <string.h>

#include "poghduka.h"

enum { CELLS = 3, STORE = CELLS * POGHDUKA_CELL_BYTES };

static uint8_t out[POGHDUKA_LIST_BYTES], data[1441];

static void show_bytes(const uint8_t *s, size_t len) {
    for (size_t i = 0; i < len; i++)
        printf("%02x", s[i]);
    printf("\n");
}

/* Says whether nothing was refused. */
static bool done(const char *what, uint32_t number) {
    printf("%s ", what);
    if (number != POGHDUKA_DONE)
        printf("refused %u\n", number);
    return number == POGHDUKA_DONE;
}

/* ---- frames, a datagram's head and a split's pieces */

static void head(size_t room, uint32_t number) {
    if (done("head", poghduka_write_head(out, room, number)))
        show_bytes(out, POGHDUKA_HEAD_BYTES);
}

static void written(uint32_t profile, size_t room, size_t at, PoghdukaFrame frame, const char *body) {
    PoghdukaFrameWritten w = poghduka_write_frame(profile, out, room, at, frame, (const uint8_t *)body, strlen(body));
    if (done("write", w.number))
        printf("next %zu\n", w.next);
}

static void frame(uint32_t profile, size_t len, size_t at) {
    PoghdukaFrameFound r = poghduka_read_frame(profile, out, len, at);
    PoghdukaFrame f = r.placed.frame;
    if (!done("frame", r.number))
        return;
    printf("kind %u reliable %u sequence %u order %u channel %u piece %d ", f.kind, f.reliable, f.sequence, f.order, f.channel, f.piece);
    printf("count %u id %u index %u start %zu next %zu ", f.meta.count, f.meta.id, f.meta.index, r.placed.start, r.next);
    show_bytes(out + r.placed.start, r.placed.len);
}

static void frames(uint32_t profile, size_t len) {
    PoghdukaFramesFound r = poghduka_read_frames(profile, out, len, POGHDUKA_HEAD_BYTES);
    if (done("frames", r.number))
        printf("%zu left %zu\n", r.count, r.left);
}

static void all_frames(void) {
    PoghdukaFrame piece = {.kind = 3, .reliable = 0x010203, .order = 0x040506, .channel = 7, .piece = true, .meta = {9, 0x0a0b, 8}};
    head(64, 0x123456);
    written(POGHDUKA_CONSOLE, 64, 4, piece, "hello");
    written(POGHDUKA_CONSOLE, 64, 29, (PoghdukaFrame){.kind = 1, .sequence = 0x070809, .order = 0x0a0b0c, .channel = 31}, "hi");
    written(POGHDUKA_CONSOLE, 64, 41, (PoghdukaFrame){.kind = 4, .reliable = 1, .sequence = 2}, "");
    show_bytes(out, 50);
    frames(POGHDUKA_CONSOLE, 50);
    frames(POGHDUKA_CONSOLE, 49);
    frame(POGHDUKA_CONSOLE, 50, 4);
    frame(POGHDUKA_CONSOLE, 50, 29);
    frame(POGHDUKA_CONSOLE, 50, 41);
    frame(POGHDUKA_CONSOLE, 50, 50);
    written(POGHDUKA_CONSOLE, 64, 4, (PoghdukaFrame){.kind = 8}, "");
    written(POGHDUKA_CONSOLE, 49, 41, (PoghdukaFrame){.kind = 4}, "");
    head(64, 1 << 24);
    head(3, 0);
}

/* Kind 4 and a length of 12 bits, under both profiles. */
static void both_profiles(void) {
    PoghdukaFrame lever = {.kind = 4, .reliable = 1, .sequence = 2, .order = 0x0a0b0c, .channel = 31};
    const uint32_t profiles[] = {POGHDUKA_CPP, POGHDUKA_CONSOLE};
    memcpy(out, "\x84\0\0\0\0\0\x0c"
                "AB", 9);
    for (int i = 0; i < 2; i++)
        written(profiles[i], 64, 9, lever, "on");
    show_bytes(out, 24);
    for (int i = 0; i < 2; i++) {
        frames(profiles[i], 24);
        frame(profiles[i], 24, 4);
        frame(profiles[i], 24, 9);
    }
}

/* Writes piece k of the first `len` bytes of the data from `at` on, with f's id, channel, order and reliable number. A refusal's `next` is
 * printed only where it is not 0. */
static size_t piece(size_t room, size_t at, size_t len, uint16_t mtu, uint32_t k, PoghdukaFrame f) {
    PoghdukaFrameWritten w = poghduka_write_piece(data, len, mtu, f.meta.id, k, f.channel, f.order, f.reliable, out + at, room - at);
    if (done("piece", w.number)) {
        printf("next %zu ", w.next);
        show_bytes(out + at, w.next < 24 ? w.next : 24);
    } else if (w.next != 0)
        printf("next %zu\n", w.next);
    return w.next;
}

/* Three pieces in one datagram; the longest piece; refusals, where others that come after them are due too; the largest numbers. */
static void all_pieces(void) {
    PoghdukaFrame f = {.reliable = 0x0d0e0f, .order = 0x0a0b0c, .channel = 9, .meta = {.id = 0x0708}};
    size_t at = POGHDUKA_HEAD_BYTES;
    for (size_t i = 0; i < sizeof data; i++)
        data[i] = 'A' + i % 26;
    head(67, 0);
    for (uint32_t k = 0; k < 4; k++, f.reliable++)
        at += piece(67, at, 3, 61, k, f);
    show_bytes(out, at);
    frames(POGHDUKA_CONSOLE, at);
    frames(POGHDUKA_CPP, at);
    frame(POGHDUKA_CPP, at, at - POGHDUKA_PIECE_HEADER - 1);
    piece(sizeof out, 0, 1441, 1500, 0, f);
    piece(sizeof out, 0, 1441, 1500, 1, f);
    piece(20, 0, 3, 61, 2, f);
    f.channel = 32;
    piece(20, 0, 3, 61, 2, f);
    piece(20, 0, 3, 61, 3, f);
    piece(20, 0, 1024, 61, 1024, f);
    piece(20, 0, 1025, 61, 1025, f);
    piece(20, 0, 1440, 1500, 1, f);
    piece(20, 0, 1025, 60, 1025, f);
    piece(20, 0, 1, 1501, 1, f);
    f.channel = 31, f.order = 1 << 24;
    piece(21, 0, 3, 61, 2, f);
    f.order--, f.reliable = 1 << 24;
    piece(21, 0, 3, 61, 2, f);
    show_bytes(out, 24);
    f.reliable--;
    piece(21, 0, 3, 61, 2, f);
}

/* ---- windows and ACKs */

static void inserted(PoghdukaReliableWindow *w, uint32_t n) {
    PoghdukaWindowInsert r = poghduka_window_insert(*w, n);
    *w = r.window;
    if (done("insert", r.number)) {
        printf("low %u bits", w->low);
        for (int i = 0; i < 256; i++)
            if (w->bits[i] != 0)
                printf(" %d:%u", i, w->bits[i]);
        printf("\n");
    }
}

static void window(void) {
    PoghdukaReliableWindow w = poghduka_window_new();
    uint32_t list[POGHDUKA_MAX_MISSING];
    const uint32_t numbers[] = {0, 0, 2, 2049, 2050, 1 << 24};
    for (int i = 0; i < 6; i++)
        inserted(&w, numbers[i]);
    size_t n = poghduka_window_missing(w, list, POGHDUKA_MAX_MISSING);
    printf("missing %zu: %u %u .. %u\n", n, list[0], list[1], list[n - 1]);
}

static void list(size_t room, bool nack, const uint32_t *numbers, size_t len) {
    PoghdukaAckWritten w = poghduka_write_list(out, room, nack, numbers, len);
    if (done("list", w.number))
        show_bytes(out, w.len);
}

static void longest_list(size_t room) {
    uint32_t numbers[2048];
    for (uint32_t i = 0; i < 2048; i++)
        numbers[i] = 2 * i;
    PoghdukaAckWritten w = poghduka_write_list(out, room, true, numbers, 2048);
    if (done("list", w.number))
        printf("of %zu\n", w.len);
}

static void ack(const uint8_t *s, size_t len) {
    PoghdukaAckHeaderFound h = poghduka_read_ack_header(s, len);
    if (!done("header", h.number))
        return;
    printf("nack %d at %zu left %u\n", h.nack, h.records.at, h.records.left);
    for (PoghdukaAckCursor records = h.records;;) {
        PoghdukaAckRecordFound r = poghduka_read_ack_record(s, len, records);
        if (!done("record", r.number))
            return;
        if (!r.found) {
            printf("none left\n");
            return;
        }
        printf("range %d first %u last %u at %zu left %u\n", r.range, r.first, r.last, r.records.at, r.records.left);
        records = r.records;
    }
}

static void all_acks(void) {
    const uint32_t numbers[] = {3, 5, 6, 7}, descending[] = {5, 3}, large[] = {1 << 24};
    const uint8_t unknown[] = {0xc0, 0, 1, 2}, reversed[] = {0xc0, 0, 1, 0, 7, 0, 0, 5, 0, 0}, datagram[] = {0x84, 0, 0, 0};
    list(64, false, numbers, 4);
    list(64, true, numbers, 4);
    ack(out, 14);
    ack(out, 13);
    ack(out, 2);
    ack(datagram, sizeof datagram);
    ack(unknown, sizeof unknown);
    ack(reversed, sizeof reversed);
    list(64, false, descending, 2);
    list(64, false, large, 1);
    list(13, false, numbers, 4);
    longest_list(POGHDUKA_LIST_BYTES - 1);
    longest_list(POGHDUKA_LIST_BYTES);
}

/* ---- the receiver; what lies behind it and behind its records is not its own */

static struct {
    PoghdukaRecvQueue queue;
    PoghdukaCellRecord records[CELLS];
    uint8_t after[4];
} lent;
static uint8_t store[STORE], joined[STORE];
static uint8_t image[POGHDUKA_IMAGE_BYTES + CELLS * POGHDUKA_IMAGE_CELL_BYTES];

/* Where an image has its unsent acknowledgements, and how long it is here. */
enum { UNSENT_AT = 1076, WHOLE = 1273 };

static void made(size_t store_len, uint32_t profile) {
    if (done("make", poghduka_make_new(&lent.queue, lent.records, CELLS, store, store_len, profile)))
        printf("ok\n");
}

static void received(const uint8_t *datagram, size_t len) {
    PoghdukaQueueReceived r = poghduka_receive(&lent.queue, lent.records, CELLS, store, STORE, datagram, len);
    if (done("receive", r.number))
        printf("ready %u dropped %u left %zu\n", r.ready, r.dropped, r.left);
}

static void taken(size_t room) {
    PoghdukaQueueTaken t = poghduka_take(&lent.queue, lent.records, CELLS, store, STORE, joined, room);
    if (!done("take", t.number))
        return;
    printf("kind %u channel %u order %u joined %d ", t.kind, t.channel, t.order, t.joined);
    show_bytes(t.joined ? joined : store + t.start, t.len);
}

static void dropped(size_t store_len, uint32_t n) {
    PoghdukaQueueDropped d = poghduka_drop_unfinished(&lent.queue, lent.records, CELLS, store, store_len, n);
    if (done("drop", d.number))
        printf("freed %u\n", d.freed);
}

static void unsent(size_t room) {
    PoghdukaAckWritten w = poghduka_write_unsent(&lent.queue, out, room);
    if (done("unsent", w.number))
        show_bytes(out, w.len < 64 ? w.len : 64), printf("of %zu\n", w.len);
}

static void missing(size_t room) {
    PoghdukaAckWritten w = poghduka_write_missing(&lent.queue, out, room);
    if (done("missing", w.number))
        show_bytes(out, w.len < 64 ? w.len : 64), printf("of %zu\n", w.len);
}

static void state(void) {
    const PoghdukaRecvQueue *q = &lent.queue;
    printf("profile %u lows %u %u next", q->profile, q->datagrams.low, q->reliables.low);
    for (int i = 0; i < 32; i++)
        printf(" %u", q->channels[i].next);
    printf("\nnewest");
    for (int i = 0; i < 32; i++)
        printf(" %u", q->channels[i].newest);
    printf(" %u unsent", q->newest);
    for (uint32_t i = 0; i < q->pending; i++)
        printf(" %u", q->unsent[i]);
    printf("\n");
    for (int i = 0; i < CELLS; i++) {
        const PoghdukaCellRecord *r = &lent.records[i];
        if (r->used == 0)
            continue;
        printf("cell used %u kind %u channel %u id %u index %u ", r->used, r->kind, r->channel, r->id, r->index);
        printf("count %u length %u sequence %u order %u ", r->count, r->length, r->sequence, r->order);
        printf("turn %u age %" PRIu64 "\n", r->turn, r->age);
    }
    if (memcmp(lent.after, "\xff\xff\xff\xff", 4) != 0)
        printf("written beyond the records\n");
}

static size_t add(size_t at, PoghdukaFrame frame, const char *body) {
    return poghduka_write_frame(lent.queue.profile, out, sizeof out, at, frame, (const uint8_t *)body, strlen(body)).next;
}

static void numbers(uint32_t first, uint32_t step, uint32_t count) {
    made(STORE, POGHDUKA_CONSOLE);
    for (uint32_t i = 0; i < count; i++) {
        poghduka_write_head(out, sizeof out, first + i * step);
        if (poghduka_receive(&lent.queue, lent.records, CELLS, store, STORE, out, 4).number != POGHDUKA_DONE)
            printf("not received\n");
    }
}

static void all_receiving(void) {
    PoghdukaFrame piece = {.kind = 3, .reliable = 0, .order = 0, .channel = 5, .piece = true, .meta = {2, 0x0a0b, 1}};
    PoghdukaFrame whole = {.kind = 1, .sequence = 9, .order = 8, .channel = 6};
    memset(&lent, 0xff, sizeof lent);
    made(STORE - 1, POGHDUKA_CONSOLE);
    made(STORE, POGHDUKA_CONSOLE);
    state();

    poghduka_write_head(out, sizeof out, 0);
    size_t end = add(add(4, piece, "lo!"), whole, "hi");
    out[end] = out[end + 1] = 0xff;
    received(out, end + 2);
    state();
    taken(STORE);
    received(out, end + 2);
    received(out, 3);
    out[0] = 0x8e;
    received(out, end);

    poghduka_write_head(out, sizeof out, 2);
    piece.reliable = 1, piece.meta.index = 0;
    received(out, add(add(4, piece, "hel"), (PoghdukaFrame){.kind = 2, .reliable = 1}, "again"));
    state();
    taken(5);
    taken(6);
    taken(6);

    /* late on channel 6 and in kind 4, not on channel 7 */
    poghduka_write_head(out, sizeof out, 3);
    PoghdukaFrame other = {.kind = 1, .sequence = 3, .channel = 7}, stop = {.kind = 4, .reliable = 2, .sequence = 0xffffff};
    end = add(add(add(4, whole, "late"), other, "new"), stop, "stop");
    stop.reliable = 3;
    received(out, add(end, stop, "late"));
    state();
    taken(STORE);
    taken(STORE);
    missing(sizeof out);
    unsent(sizeof out);
    unsent(sizeof out);
    unsent(2);
    lent.queue.newest = 0x1000001;
    unsent(sizeof out);
    lent.queue.newest = 0x1000000, lent.queue.channels[31].newest = 0x1000001;
    missing(sizeof out);
    received(out, 4);
    lent.queue.channels[31].newest = 0x1000000;
    unsent(sizeof out);
    lent.queue.pending = 1025;
    unsent(sizeof out);

    /* the longest outputs */
    numbers(2, 3, 683);
    missing(POGHDUKA_MISSING_BYTES - 1);
    missing(POGHDUKA_MISSING_BYTES);
    numbers(1, 2, 1024);
    unsent(POGHDUKA_UNSENT_BYTES - 1);
    unsent(POGHDUKA_UNSENT_BYTES);
}

/* A C++ receiver: kinds 1 and 4 of a channel go by one memory. */
static void cpp_receiving(void) {
    PoghdukaFrame one = {.kind = 1, .sequence = 9, .channel = 6}, four = {.kind = 4, .sequence = 9, .order = 5, .channel = 6};
    made(STORE, POGHDUKA_CPP);
    poghduka_write_head(out, sizeof out, 0);
    size_t end = add(add(4, one, "one"), four, "late");
    four.reliable = 1, four.sequence = 10, four.order = 4;
    end = add(end, four, "four");
    memcpy(out + end, "\0\0\x0c"
                      "AB", 5);
    received(out, end + 5);
    state();
    taken(STORE);
    lent.queue.profile = 2;
    received(out, end + 5);
    taken(STORE);
    unsent(sizeof out);
    missing(sizeof out);
    lent.queue.profile = POGHDUKA_CPP;
    taken(STORE);
    taken(STORE);
    taken(STORE);
    unsent(sizeof out);
}

/* Two pieces of a message without reliable numbers and one of a message with one: the two go where more than n datagrams were accepted
 * after the second. The age of a free cell is not looked at; that of an unfinished message is at most 2^32. */
static void unfinished(uint32_t profile) {
    PoghdukaFrame preview = {.kind = 0, .piece = true, .meta = {3, 0x0a0b, 0}}, sure = {.kind = 2, .piece = true, .meta = {2, 0x0c0d, 0}};
    made(STORE, profile);
    poghduka_write_head(out, sizeof out, 0);
    received(out, add(add(4, preview, "one"), sure, "sure"));
    poghduka_write_head(out, sizeof out, 1);
    preview.meta.index = 2;
    received(out, add(4, preview, "three"));
    for (uint32_t i = 2; i < 5; i++) {
        poghduka_write_head(out, sizeof out, i);
        received(out, 4);
    }
    state();
    dropped(STORE - 1, 2);
    dropped(STORE, UINT32_MAX);
    dropped(STORE, 3);
    dropped(STORE, 2);
    state();
    dropped(STORE, 0);
    lent.records[0].age = 5;
    dropped(STORE, 0);
    for (int i = 0; i < CELLS; i++)
        if (lent.records[i].used != 0)
            lent.records[i].age = (uint64_t)1 << 32;
    dropped(STORE, 0);
    for (int i = 0; i < CELLS; i++)
        if (lent.records[i].used != 0)
            lent.records[i].age++;
    dropped(STORE, 0);
}

static void saved(size_t store_len, size_t room) {
    PoghdukaQueueSaved s = poghduka_save(&lent.queue, lent.records, CELLS, store, store_len, image, room);
    if (!done("save", s.number))
        return;
    printf("of %zu\n", s.len);
    for (size_t at = UNSENT_AT; at < s.len; at += 64)
        show_bytes(image + at, s.len - at < 64 ? s.len - at : 64);
}

static void restored(size_t cells, size_t len) {
    size_t store_len = cells * POGHDUKA_CELL_BYTES;
    if (done("restore", poghduka_restore(&lent.queue, lent.records, cells, store, store_len, image, len)))
        printf("ok\n");
}

/* An open piece, a held message and a ready one. The receiver is saved, made anew and restored; refused restores change nothing. */
static void images(uint32_t profile) {
    PoghdukaFrame open = {.kind = 0, .piece = true, .meta = {3, 0x0a0b, 1}}, held = {.kind = 3, .order = 0x010203, .channel = 5};
    made(STORE, profile);
    poghduka_write_head(out, sizeof out, 0);
    received(out, add(add(4, open, "open"), held, "held"));
    poghduka_write_head(out, sizeof out, 2);
    received(out, add(4, (PoghdukaFrame){.kind = 1, .sequence = 7, .order = 6, .channel = 31}, "ready"));
    saved(STORE - 1, sizeof image);
    saved(STORE, WHOLE - 1);
    saved(STORE, sizeof image);
    made(STORE, POGHDUKA_CONSOLE);
    memset(store, 0, sizeof store);
    restored(0, WHOLE);
    restored(CELLS, WHOLE - 1);
    restored(CELLS, WHOLE + 1);
    restored(CELLS - 1, WHOLE);
    image[11] += 2;
    restored(CELLS, WHOLE);
    image[11] -= 2;
    state();
    restored(CELLS, WHOLE);
    state();
    taken(STORE);
    taken(STORE);
    missing(sizeof out);
    unsent(sizeof out);
    saved(STORE, sizeof image);
}

/* A number that is no profile's is refused by 9, with 0 beside it and nothing written; a line is printed only where it is not. (In Rust no
 * call takes such a number.) */
static void no_profile(uint32_t profile) {
    static uint8_t before[sizeof out], lent_before[sizeof lent];
    memcpy(before, out, sizeof out);
    memcpy(lent_before, &lent, sizeof lent);
    PoghdukaFramesFound n = poghduka_read_frames(profile, out, 24, 4);
    PoghdukaFrameFound r = poghduka_read_frame(profile, out, 24, 4);
    PoghdukaFrameWritten w = poghduka_write_frame(profile, out, sizeof out, 4, (PoghdukaFrame){.kind = 0}, store, 0);
    PoghdukaFrame f = r.placed.frame;
    uint32_t made = poghduka_make_new(&lent.queue, lent.records, CELLS, store, STORE, profile);
    bool refused = n.number == 9 && r.number == 9 && w.number == 9 && made == 9;
    bool zeros = n.count == 0 && n.left == 0 && w.next == 0 && r.next == 0 && r.placed.start == 0 && r.placed.len == 0 && f.kind == 0 &&
                 f.reliable == 0 && f.sequence == 0 && f.order == 0 && f.channel == 0 && !f.piece && f.meta.count == 0 &&
                 f.meta.id == 0 && f.meta.index == 0;
    if (!refused || !zeros || memcmp(before, out, sizeof out) != 0 || memcmp(lent_before, &lent, sizeof lent) != 0)
        printf("profile %u is not refused as it should be\n", profile);
}

int main(void) {
    memset(out, 0xee, sizeof out);
    all_frames();
    both_profiles();
    all_pieces();
    window();
    all_acks();
    all_receiving();
    cpp_receiving();
    unfinished(POGHDUKA_CONSOLE);
    unfinished(POGHDUKA_CPP);
    images(POGHDUKA_CONSOLE);
    images(POGHDUKA_CPP);
    no_profile(2);
    no_profile(256);
    no_profile(UINT32_MAX);
    return 0;
}
