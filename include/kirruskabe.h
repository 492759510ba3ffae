/* Kirruskabe: confirmed messages over DMR radio (ETSI TS 102 361), for gateways in C, C++ or Rust.

   Octets in, octets out. Every function takes any octets and numbers, of any lengths, and returns. A result of type uint8_t is the
   number of the refusal, 0 for none, but for kirruskabe_next_sequence; the numbers are those of the table in README.md. A function that
   refuses leaves all lent memory as it was. Where a size in octets is given for an argument, another size is refused with 1, before
   anything else.

   A pointer and the length behind it are one argument. A pointer must be valid for its length, and lent memory (not const) must not
   overlap any other argument. A pointer whose length is 0 may be anything but NULL.

   Addresses are radio addresses of 24 bits, the most significant octet first where they stand in octets.

   Link with crates/capi/out/libcapi.a, which `rt lib` writes where it is called in crates/capi. Each function below is proved, for every
   input, to meet its contract in crates/capi/src, whose definitions stand in crates/capi/specs and in the specs/ of the crates below. */
#ifndef KIRRUSKABE_H
#define KIRRUSKABE_H

#include <stddef.h>
#include <stdint.h>

#ifdef __cplusplus
extern "C" {
#endif

/* Sizes in octets. */
#define KIRRUSKABE_FORM 1024      /* the stored form of a receiver and its store */
#define KIRRUSKABE_LINE 1027      /* an answer: a code, the length of the contents (2, most significant first), contents, zeros */
#define KIRRUSKABE_DATAGRAM 53
#define KIRRUSKABE_BURST 33
#define KIRRUSKABE_HEADER 12
#define KIRRUSKABE_BLOCK 12
#define KIRRUSKABE_FIELD 25       /* a block field: 196 bits, the first highest in octet 0, and four that are written 0 */
#define KIRRUSKABE_MESSAGE 626    /* the longest message */

/* Codes of an answer. */
#define KIRRUSKABE_OPENED 1       /* a header opened a transaction */
#define KIRRUSKABE_REPEAT 2       /* a header or a block that is known already */
#define KIRRUSKABE_STORED 3       /* a new block */
#define KIRRUSKABE_BAD 4          /* the last block of a message whose check is bad; nothing is held any more */
#define KIRRUSKABE_HANDED_ON 5    /* the last block of a message whose check is good; the contents are the message */
#define KIRRUSKABE_RESPONSE 6     /* the contents are the 12 octets of the response's header and, for a SACK, the 12 of its data block */

/* ---- the receiver

   Its state is its stored form. Each event takes the stored form, restores the receiver from it, acts, and leaves the stored form of
   the receiver after the event: the claim `demand3` of crates/history/specs/Claims.antt, with a restart before every event.

   That holds of a stored form that is kept whole. For a message to be handed on once although power can be lost, the caller sees to this:

   - The 1,024 octets reach the disk all or not at all: write another file, fsync, rename; or write two places in turn.
   - The stamp differs from the one before. It stands in both blocks of the stored form (octets 2, 3 and 514, 515), and the functions take
     any. But of a form with one block new and the other old only the stamps tell: if they differ it gets 18, and if they are equal it can
     be taken for a good one. After 17 or 18 only kirruskabe_fresh is left, and a fresh receiver hands a repeated message on again.
   - Save first, then act: acting before saving can double a message. Saving before acting can lose one, but a complete stored form (octet
     4 is 2) still holds its message: 10B - 4 - pad octets, B in octet 14 and pad in octet 13, the first 487 from octet 23 on, the others
     from octet 516 on. A caller that finds it at its start, and no record that this message was handed on, hands it on then.

   tests/example.c does all of this. Its records name a message by a count that is saved with the stored form, since a later message can
   be equal to an earlier one in all its octets. */

/* The stored form of a fresh receiver with this address. 16: address over 24 bits. */
uint8_t kirruskabe_fresh(uint32_t own, uint16_t stamp, uint8_t *form, size_t form_len);

/* An event: the stored form after it replaces the one given, and `line` gets the answer. form: 1,024 octets; line: 1,027; datagram: 53;
   header and block: 12. The order of the numbers: 1 for every size first, whatever else is wrong; then 17, 18: the stored form given is not
   one; then the event's own numbers, in the order that stands behind each function. */
uint8_t kirruskabe_on_datagram(uint8_t *form, size_t form_len, uint16_t stamp, const uint8_t *datagram, size_t datagram_len,
                               uint8_t *line, size_t line_len); /* 2 to 7, then as a header or a block */
uint8_t kirruskabe_on_header(uint8_t *form, size_t form_len, uint16_t stamp, const uint8_t *header, size_t header_len,
                             uint8_t *line, size_t line_len); /* 8, 9, 10, 11, 12 */
uint8_t kirruskabe_on_block(uint8_t *form, size_t form_len, uint16_t stamp, const uint8_t *block, size_t block_len,
                            uint8_t *line, size_t line_len); /* 13, 12, 14, 15 */
uint8_t kirruskabe_on_end(uint8_t *form, size_t form_len, uint16_t stamp, uint8_t *line, size_t line_len); /* 12 */

/* ---- writing

   What these functions write the functions below read back as it was given. So they do where the slot type of a burst or a datagram has
   got at most 3 wrong bits, and at most one of the 15 columns of its block field holds more than one wrong bit. */

/* A message of this length: out (2 octets) gets the number of its blocks and its pad. 16: over 626 octets. */
uint8_t kirruskabe_message_size(size_t length, uint8_t *out, size_t out_len);

/* The header before a whole message of this length, and before a repeat attempt with `count` of its blocks. out: 12 octets.
   16: over 626 octets, a field outside its width (SAP 4 bits, N(S) 3, addresses 24), or a count not 1 to the number of blocks. */
uint8_t kirruskabe_full_header(size_t length, uint8_t sap, uint8_t ns, uint32_t destination, uint32_t source, uint8_t *out, size_t out_len);
uint8_t kirruskabe_partial_header(size_t length, uint8_t count, uint8_t sap, uint8_t ns, uint32_t destination, uint32_t source,
                                  uint8_t *out, size_t out_len);

/* Block n of a message, with pad and message check in place. out: 12 octets. 16: over 626 octets, or no such block. */
uint8_t kirruskabe_message_block(const uint8_t *message, size_t message_len, size_t n, uint8_t *out, size_t out_len);

/* A header. fields: 16 octets, format, group, A, pad, SAP, destination (3), source (3), full-message flag, block count, and octet 9 in
   three: class, type, status for format 1; FSN and two that are ignored (read as 0) for format 2; S, N(S), FSN for format 3. out: 12
   octets. 16: a field outside its width, or a format not 1 to 3. */
uint8_t kirruskabe_write_header(const uint8_t *fields, size_t fields_len, uint8_t *out, size_t out_len);

/* A block. data: 10 octets. out: 12 octets. 16: serial over 127. */
uint8_t kirruskabe_write_block(uint8_t serial, const uint8_t *data, size_t data_len, uint8_t *out, size_t out_len);

/* A response: reply 0 ACK, 1 NACK, 2 SACK; flags: 8 octets, those of a SACK. out: 24 octets, header and data block (zeros without one).
   16: another reply, or a field outside its width. */
uint8_t kirruskabe_write_response(uint8_t reply, uint8_t sap, uint8_t ns, uint32_t destination, uint32_t source, const uint8_t *flags,
                                  size_t flags_len, uint8_t *out, size_t out_len);

/* A burst. info: 12 octets; sync: 0 base, 1 mobile. out: 33 octets. 16: colour code over 15, data type not 6 or 7, or another sync. */
uint8_t kirruskabe_write_burst(uint8_t colour, uint8_t datatype, const uint8_t *info, size_t info_len, uint8_t sync, uint8_t *out,
                               size_t out_len);

/* A datagram. labels: 17 octets, sequence counter, source (3), target (3), repeater (4), timeslot, call type, stream (4); the others
   as of a burst. out: 53 octets. 16: as for a burst, or timeslot or call type over 1. */
uint8_t kirruskabe_write_datagram(const uint8_t *labels, size_t labels_len, uint8_t colour, uint8_t datatype, const uint8_t *info,
                                  size_t info_len, uint8_t sync, uint8_t *out, size_t out_len);

/* The sequence counter of the next datagram: 255 goes to 0. */
uint8_t kirruskabe_next_sequence(uint8_t sequence);

/* ---- reading */

/* A datagram. out: 31 octets, the 17 of its labels, colour code, data type, 12 of information. 1 to 7. */
uint8_t kirruskabe_read_datagram(const uint8_t *datagram, size_t datagram_len, uint8_t *out, size_t out_len);

/* A burst. out: 14 octets, colour code, data type, 12 of information. 1, 4, 5, 6, 7. */
uint8_t kirruskabe_read_burst(const uint8_t *burst, size_t burst_len, uint8_t *out, size_t out_len);

/* A header. out: the 16 octets that kirruskabe_write_header takes. 1, 8, 9. */
uint8_t kirruskabe_read_header(const uint8_t *header, size_t header_len, uint8_t *out, size_t out_len);

/* A block. out: 11 octets, serial and 10 of data. 1, 13. */
uint8_t kirruskabe_read_block(const uint8_t *block, size_t block_len, uint8_t *out, size_t out_len);

/* A response: its header and, looked at for class 2 (a SACK) alone, its data block. out: 18 octets, class, type, status, SAP,
   destination (3), source (3), 8 of flags (zeros where it is no SACK). 1, 8, 9, 1, 13. */
uint8_t kirruskabe_read_response(const uint8_t *header, size_t header_len, const uint8_t *block, size_t block_len, uint8_t *out,
                                 size_t out_len);

/* ---- the codes */

/* The 20 bits of a slot type, and the data octet (colour code, data type) of a codeword within 3 bits. out: 1 octet.
   1: over 20 bits; 4: no codeword near. */
uint32_t kirruskabe_write_slot_type(uint8_t data);
uint8_t kirruskabe_read_slot_type(uint32_t word, uint8_t *out, size_t out_len);

/* A block field: out gets 25 octets for 12 of information, and 12 for the 25 of a field. 1; reading 1, 6, 7. */
uint8_t kirruskabe_write_field(const uint8_t *info, size_t info_len, uint8_t *out, size_t out_len);
uint8_t kirruskabe_read_field(const uint8_t *field, size_t field_len, uint8_t *out, size_t out_len);

/* The checks of a header (mask CCCC; 0 in the stored form), of a block's data and serial (9 bits), and of a message. Any octets. */
uint16_t kirruskabe_header_check(uint16_t mask, const uint8_t *octets, size_t octets_len);
uint16_t kirruskabe_block_check(uint8_t serial, const uint8_t *data, size_t data_len);
uint32_t kirruskabe_message_check(const uint8_t *octets, size_t octets_len);

#ifdef __cplusplus
}
#endif

#endif
