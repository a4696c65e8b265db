/* Replays a recording as the program `trace` does, and prints what `trace` prints, over the calls of include/poghduka.h.
 *
 * Standard input has datagrams, each after a 16-bit big-endian length; a cut last one is skipped. After each datagram all ready messages
 * are taken and the acknowledgements written. Per datagram one line: its number ('-' for 9, 1, 2, 3), refusal or 0, ready, dropped; then
 * per message '+' and its length.
 *
 * With arguments, FROM TO [COUNT], it goes on with the receiver whose image is the file FROM (- for a new receiver), stops after COUNT
 * datagrams, and writes the receiver's image to the file TO. So a recording can be replayed in parts, and goes on where it stopped. */
#include <inttypes.h>
#include <limits.h>
#include <stdio.h>
#include <stdlib.h>
#include <string.h>

#include "poghduka.h"

enum { CELLS = 32, STORE = CELLS * POGHDUKA_CELL_BYTES };

static PoghdukaRecvQueue queue;
static PoghdukaCellRecord records[CELLS];
static uint8_t store[STORE];
static uint8_t joined[STORE];
static uint8_t out[POGHDUKA_UNSENT_BYTES];
static uint8_t input[65535];
static uint8_t image[POGHDUKA_IMAGE_BYTES + CELLS * POGHDUKA_IMAGE_CELL_BYTES + 1];

static void show_line(PoghdukaQueueReceived r, const uint8_t *datagram) {
    switch (r.number) {
    case POGHDUKA_UNSOUND:
    case POGHDUKA_CUT:
    case POGHDUKA_TOO_LONG:
    case POGHDUKA_FIRST_BYTE:
        printf("-");
        break;
    default:
        printf("%" PRIu32, (uint32_t)datagram[1] | (uint32_t)datagram[2] << 8 | (uint32_t)datagram[3] << 16);
    }
    printf(" %" PRIu32 " %" PRIu32 " %" PRIu32 "\n", r.number, r.ready, r.dropped);
}

static void one_datagram(const uint8_t *datagram, size_t len) {
    show_line(poghduka_receive(&queue, records, CELLS, store, STORE, datagram, len), datagram);
    for (;;) {
        PoghdukaQueueTaken t = poghduka_take(&queue, records, CELLS, store, STORE, joined, STORE);
        if (t.number != POGHDUKA_DONE)
            break;
        printf("+ %zu\n", t.len);
    }
    poghduka_write_unsent(&queue, out, sizeof out);
}

/* The receiver of the image in a file; one just made where the name is -. */
static int begin(const char *from) {
    if (strcmp(from, "-") == 0)
        return poghduka_make_new(&queue, records, CELLS, store, STORE, POGHDUKA_CONSOLE) == POGHDUKA_DONE;
    FILE *file = fopen(from, "rb");
    if (file == NULL)
        return 0;
    size_t len = fread(image, 1, sizeof image, file);
    fclose(file);
    return poghduka_restore(&queue, records, CELLS, store, STORE, image, len) == POGHDUKA_DONE;
}

static int save(const char *to) {
    PoghdukaQueueSaved s = poghduka_save(&queue, records, CELLS, store, STORE, image, sizeof image);
    if (s.number != POGHDUKA_DONE)
        return 0;
    FILE *file = fopen(to, "wb");
    if (file == NULL)
        return 0;
    size_t written = fwrite(image, 1, s.len, file);
    return fclose(file) == 0 && written == s.len;
}

/* No input is read ahead: what follows the COUNT datagrams is left to whoever reads on. */
int main(int argc, char **argv) {
    uint8_t head[2];
    unsigned long count = argc > 3 ? strtoul(argv[3], NULL, 10) : ULONG_MAX;
    setvbuf(stdin, NULL, _IONBF, 0);
    if (argc == 2 || !begin(argc > 2 ? argv[1] : "-"))
        return 1;
    while (count-- > 0 && fread(head, 1, 2, stdin) == 2) {
        size_t len = (size_t)head[0] << 8 | head[1];
        if (fread(input, 1, len, stdin) != len)
            break;
        one_datagram(input, len);
    }
    if (argc > 2 && !save(argv[2]))
        return 1;
    return fflush(stdout) != 0;
}
