/* Writes the captures and logs of this folder, and the inputs that the programs' own runs take, with the writers of the library.

       cc -I include examples/make.c crates/capi/out/libcapi.a -o make && ./make FOLDER

   What no writer of ours writes, since it would be refused on reading, is a thing written and then changed: bits of a burst, octets of
   a header or a block. */
#include <stdio.h>
#include <stdlib.h>
#include <string.h>
#include "kirruskabe.h"

#define OWN 0x2301AF
#define SENDER 0x230456
#define SECOND 0x12D687
#define SAP 4
#define NS 5
#define BLOCKS 2

static const uint8_t message[8] = {'t', 'a', 'r', 'e', ' ', '+', '1', '2'};

static uint8_t header[KIRRUSKABE_HEADER], partial[KIRRUSKABE_HEADER], blocks[BLOCKS][KIRRUSKABE_BLOCK];
static FILE *file;

/* A writer that refuses ends the program: nothing here may be refused. */
static void written(uint8_t number) {
    if (number == 0) return;
    fprintf(stderr, "make: a writer refuses with %d\n", number);
    exit(1);
}

static void put(const void *octets, size_t length) {
    if (fwrite(octets, 1, length, file) == length) return;
    perror("make");
    exit(1);
}

/* A file of the folder, with the own address at its start. */
static void begin(const char *folder, const char *name) {
    static const uint8_t own[3] = {OWN >> 16, OWN >> 8 & 255, OWN & 255};
    char path[4096];
    if (snprintf(path, sizeof path, "%s/%s", folder, name) >= (int)sizeof path || (file = fopen(path, "wb")) == NULL) {
        perror(name);
        exit(1);
    }
    put(own, sizeof own);
}

static void end(void) {
    if (fclose(file) == 0) return;
    perror("make");
    exit(1);
}

/* ---- datagrams */

static uint8_t sequence, datagram[KIRRUSKABE_DATAGRAM];

/* The next datagram with these 12 octets of information, left in `datagram`. */
static void write_datagram(uint8_t datatype, const uint8_t *info) {
    const uint8_t labels[17] = {sequence, SENDER >> 16, SENDER >> 8 & 255, SENDER & 255, OWN >> 16, OWN >> 8 & 255, OWN & 255,
                                0, 1, 0x23, 0x45, 1, 0, 0xA1, 0xB2, 0xC3, 0xD4};
    written(kirruskabe_write_datagram(labels, sizeof labels, 1, datatype, info, 12, 1, datagram, sizeof datagram));
    sequence = kirruskabe_next_sequence(sequence);
}

/* Change a bit of the burst. */
static void flip(int bit) {
    datagram[20 + bit / 8] ^= 128 >> bit % 8;
}

/* Change a bit of the slot type, the first being 0. */
static void flip_slot(int bit) {
    flip(bit < 10 ? 98 + bit : 146 + bit);
}

/* Change the bit of the block field in this row and column. */
static void flip_field(int row, int column) {
    int sent = 181 * (1 + 15 * row + column) % 196;
    flip(sent < 98 ? sent : 68 + sent);
}

static void put_datagram(uint8_t datatype, const uint8_t *info) {
    write_datagram(datatype, info);
    put(datagram, sizeof datagram);
}

/* A datagram with one octet before the burst changed. */
static void put_changed(uint8_t datatype, const uint8_t *info, int octet, uint8_t change) {
    write_datagram(datatype, info);
    datagram[octet] ^= change;
    put(datagram, sizeof datagram);
}

/* A datagram whose block field has the reserved bit R(2) set: bit 0 of row 0, with the parity bits that go with it. */
static void put_reserved(const uint8_t *info) {
    static const int rows[5] = {0, 9, 10, 11, 12}, columns[3] = {0, 11, 14};
    write_datagram(7, info);
    for (int r = 0; r < 5; r++)
        for (int c = 0; c < 3; c++) flip_field(rows[r], columns[c]);
    put(datagram, sizeof datagram);
}

/* ---- headers and blocks that are read and then refused */

/* A header with one octet changed and its check made good again. */
static void changed_header(int octet, uint8_t value, uint8_t *out) {
    memcpy(out, header, KIRRUSKABE_HEADER);
    out[octet] = value;
    uint16_t check = kirruskabe_header_check(0xCCCC, out, 10);
    out[10] = check >> 8;
    out[11] = check & 255;
}

/* A copy with bits of one octet changed, its check left as it was. */
static const uint8_t *damaged(const uint8_t *octets, int octet, uint8_t change) {
    static uint8_t copy[12];
    memcpy(copy, octets, sizeof copy);
    copy[octet] ^= change;
    return copy;
}

/* A block of zeros with this serial. */
static const uint8_t *zero_block(uint8_t serial) {
    static const uint8_t zeros[10];
    static uint8_t block[KIRRUSKABE_BLOCK];
    written(kirruskabe_write_block(serial, zeros, sizeof zeros, block, sizeof block));
    return block;
}

/* The full header of the message to another address. */
static const uint8_t *header_to(uint32_t destination, uint32_t source) {
    static uint8_t out[KIRRUSKABE_HEADER];
    written(kirruskabe_full_header(sizeof message, SAP, NS, destination, source, out, sizeof out));
    return out;
}

/* The second block with wrong octets and a good check. */
static const uint8_t *wrong_block(void) {
    static uint8_t out[KIRRUSKABE_BLOCK];
    uint8_t data[10];
    memcpy(data, blocks[1] + 2, sizeof data);
    data[0] ^= 1;
    written(kirruskabe_write_block(1, data, sizeof data, out, sizeof out));
    return out;
}

/* ---- records of a log */

static void put_record(uint8_t kind, const uint8_t *octets, size_t length) {
    const uint8_t start[3] = {kind, length >> 8, length & 255};
    put(start, sizeof start);
    put(octets, length);
}

static void put_end(void) {
    put_record(2, header, 0);
}

/* A restart with this stamp, into a store of other octets. */
static void put_restart(uint16_t stamp) {
    uint8_t octets[632];
    memset(octets, 0xA5, sizeof octets);
    octets[0] = stamp >> 8;
    octets[1] = stamp & 255;
    put_record(3, octets, sizeof octets);
}

/* A record of an unknown kind, and one that the end of the log cuts short. */
static void put_bad_records(void) {
    static const uint8_t unknown = 0x3F, cut[3] = {1, 0, 12};
    put_record(9, &unknown, 1);
    put(cut, sizeof cut);
    put(blocks[0], 6);
}

/* ---- the files */

static void message_capture(void) {
    sequence = 254;
    write_datagram(6, header);
    flip_slot(0), flip_slot(3), flip_slot(14);
    put(datagram, sizeof datagram);
    put_datagram(7, blocks[0]);
    put_datagram(7, blocks[0]);
    write_datagram(7, blocks[1]);
    flip_field(0, 4), flip_field(3, 4), flip_field(4, 4), flip_field(9, 4), flip_field(12, 4), flip_field(5, 9), flip_field(11, 14);
    put(datagram, sizeof datagram);
    put_datagram(6, header);
}

static void refusals_capture(void) {
    uint8_t changed[KIRRUSKABE_HEADER];
    sequence = 3;
    put_changed(6, header, 0, 1);       /* 2: EMRD */
    put_changed(6, header, 15, 0x20);   /* 3: frame type 0 */
    write_datagram(6, header);
    flip_slot(0), flip_slot(1), flip_slot(2), flip_slot(3);
    put(datagram, sizeof datagram);     /* 4 */
    put_changed(6, header, 15, 1);      /* 5: data type 7 before a slot type of 6 */
    write_datagram(7, blocks[0]);
    flip_field(1, 1), flip_field(1, 2), flip_field(2, 1), flip_field(2, 2);
    put(datagram, sizeof datagram);     /* 6 */
    put_reserved(blocks[0]);            /* 7 */
    put_datagram(6, damaged(header, 11, 1)); /* 8 */
    changed_header(0, 0x44, changed);
    put_datagram(6, changed);           /* 9: format 4 */
    put_datagram(6, header_to(SENDER + 1, SENDER)); /* 10 */
    changed_header(8, 0x80, changed);
    put_datagram(6, changed);           /* 11: no block */
    put_datagram(7, blocks[0]);         /* 12: no transaction yet */
    put_datagram(6, header);
    put_datagram(7, damaged(blocks[0], 4, 1)); /* 13 */
    put_datagram(7, zero_block(BLOCKS)); /* 14 */
    put_datagram(7, blocks[0]);
    put_datagram(7, zero_block(0));     /* 15 */
    write_datagram(7, blocks[1]);
    put(datagram, 4);                   /* 1: the first octets of a datagram */
}

/* A message of which a restart stands between the two blocks. */
static void put_over_restart(void) {
    put_record(0, header, sizeof header);
    put_record(1, blocks[0], sizeof blocks[0]);
    put_end();
    put_restart(0x1234);
    put_record(1, blocks[1], sizeof blocks[1]);
}

static void restart_log(void) {
    put_over_restart();
    put_restart(0x1235);
    put_record(0, header, sizeof header);
    put_record(1, blocks[1], sizeof blocks[1]);
    put_end();
}

static void bad_log(void) {
    put_end();
    put_record(0, header, sizeof header);
    put_end();
    put_record(1, wrong_block(), KIRRUSKABE_BLOCK);
    put_record(1, blocks[0], sizeof blocks[0]);
    put_end();
    put_record(0, partial, sizeof partial);
    put_record(1, blocks[1], sizeof blocks[1]);
    put_record(1, blocks[0], sizeof blocks[0]);
    put_bad_records();
}

/* The header or the one block of an empty message from the second station. */
static void put_empty(uint8_t datatype) {
    uint8_t out[12];
    if (datatype == 6) written(kirruskabe_full_header(0, 0, 7, OWN, SECOND, out, sizeof out));
    else written(kirruskabe_message_block(message, 0, 0, out, sizeof out));
    put_datagram(datatype, out);
}

static void deliveries_capture(void) {
    sequence = 90;
    put_datagram(6, header);
    put_datagram(7, wrong_block());
    put_datagram(7, blocks[0]);         /* bad */
    put_datagram(6, partial);
    put_datagram(7, blocks[1]);
    put_datagram(7, blocks[0]);         /* handed on */
    put_datagram(6, header);
    put_datagram(7, blocks[0]);         /* a repeat: 12 */
    put_empty(6);
    put_empty(7);                       /* handed on, no octets */
    put_empty(7);
    put_datagram(6, header);            /* no repeat any more: another transaction came between */
    put_datagram(7, blocks[1]);
    put_datagram(7, blocks[0]);         /* handed on */
}

static void delivered_stdin(void) {
    sequence = 7;
    put_empty(7);
    put_empty(6);
    put_datagram(6, damaged(header, 3, 2));
    put_empty(7);
    put_empty(6);
    put_datagram(6, header);
    put_datagram(7, blocks[0]);
    put_datagram(7, wrong_block());
    put_datagram(6, header);
    put_datagram(7, blocks[0]);
    put_datagram(7, damaged(blocks[1], 8, 1));
    put_datagram(7, blocks[1]);
    put_datagram(7, blocks[1]);
    put(datagram, KIRRUSKABE_DATAGRAM - 1);
}

static void gateway_stdin(void) {
    static const uint8_t zeros[KIRRUSKABE_DATAGRAM];
    sequence = 250;
    put_datagram(6, header);
    put_datagram(7, blocks[0]);
    put_datagram(7, blocks[0]);
    put_datagram(7, damaged(blocks[1], 5, 0x40));
    put_datagram(7, blocks[1]);
    put_datagram(6, header);
    put_datagram(7, blocks[1]);
    put_datagram(6, header_to(SENDER, OWN));
    put_changed(7, blocks[0], 15, 0x20);
    put(zeros, sizeof zeros);
    put(datagram, 2);
}

static void replay_stdin(void) {
    put_over_restart();
    put_record(0, header, sizeof header);
    put_bad_records();
}

int main(int argc, char **argv) {
    static const struct {
        const char *name;
        void (*write)(void);
    } files[] = {{"message.capture", message_capture}, {"refusals.capture", refusals_capture}, {"deliveries.capture", deliveries_capture},
                 {"restart.log", restart_log}, {"bad.log", bad_log}, {"gateway.stdin", gateway_stdin}, {"replay.stdin", replay_stdin},
                 {"delivered.stdin", delivered_stdin}};
    if (argc != 2) {
        fprintf(stderr, "usage: make FOLDER\n");
        return 2;
    }
    written(kirruskabe_full_header(sizeof message, SAP, NS, OWN, SENDER, header, sizeof header));
    written(kirruskabe_partial_header(sizeof message, 1, SAP, NS, OWN, SENDER, partial, sizeof partial));
    for (size_t n = 0; n < BLOCKS; n++) written(kirruskabe_message_block(message, sizeof message, n, blocks[n], sizeof blocks[n]));
    for (size_t i = 0; i < sizeof files / sizeof files[0]; i++) {
        begin(argv[1], files[i].name);
        files[i].write();
        end();
    }
    return 0;
}
