/* SPDX-License-Identifier: Apache-2.0 OR MIT
 *
 * store_io.h: what a C host calls of the store-io port, libstore_io.a.
 *
 * Every function below is proved to do what its comment says, for all arguments: buffers of any length and content, any
 * number. What a host must see to is what C cannot say:
 *   - a pointer followed by a length is a buffer of that many bytes, readable, and writable where it is not const; with
 *     length 0 the pointer may be any pointer but NULL;
 *   - a pointer with no length is one number or one array of the size written there, never NULL, and aligned as C asks of its
 *     type; buffers of bytes may begin anywhere;
 *   - two pointers of one call overlap only where both are const. So the payload of sio_encode may be a part of any slot but
 *     the one that is written.
 *
 * Version. A host compares SIO_VERSION, which it was compiled with, and sio_version(), which it was linked with, before
 * anything else, and stops where they differ: the number rises by one whenever an argument or a lent array changes.
 *
 * Buffers are lent for the call and no longer: no pointer to them is kept. A buffer that is const may be lent to several calls
 * at once.
 *
 * State. There is none: no heap, no data of the library's own that is written, no lock, no call of the system. The archive
 * calls memcpy and memset of the C library, and nothing else. Calls on different buffers may be made from several threads at
 * once, and from a signal handler.
 *
 * Results. What a function returns is one of these:
 *   - a refusal (SIO_REFUSAL_..), of all functions but those below: 0 where the function did its work. A refusal leaves every
 *     byte of every lent buffer and every number as it was;
 *   - a status (SIO_STATUS_..), of sio_validate and sio_frame_slot: 12 is the good one, and 0 is none of theirs;
 *   - facts (SIO_FACTS_..), of sio_header_facts;
 *   - a slot (SIO_SLOT_..), of sio_winner_payload: 0 is none;
 *   - a number that is asked for, of sio_version, sio_crc32c, sio_crc32c_append, sio_crc32c_gap, sio_remaining and
 *     sio_entries_per_page.
 *
 * Lengths. Any length may be handed over; these are taken, and another one is answered as stated at the function:
 *
 *    a slot                     2^log2_slot_size bytes, 512 to 65,536
 *    its payload                up to 128 bytes less than the slot
 *    frames, verdicts           69 and 4 bytes a pair, 1 to 112 pairs
 *    a volume record            64 bytes to decode, 64 or more to encode; 48 or more for its base
 *    a page                     24 bytes and 96 an entry to decode, that many or more to encode
 *    an entry                   96 bytes or more, of which the first 96 count
 *    a name                     1 to 24 bytes
 *
 * Stack. So many bytes a call takes at most, its arguments on the stack and the return address included:
 *
 *      64   sio_version sio_crc32c sio_crc32c_append sio_crc32c_gap sio_remaining sio_read_u8 sio_read_u16 sio_read_u32
 *           sio_read_u64 sio_read_bytes sio_read_array16 sio_read_array24 sio_write_u8 sio_write_u16 sio_write_u32
 *           sio_write_u64 sio_volume_decode sio_volume_base_decode sio_volume_base_encode sio_entries_per_page sio_table_end
 *           sio_check_file_len sio_decode_page sio_reserved_span sio_heal_number
 *     128   sio_write_bytes sio_write_zeros sio_decide sio_next_number sio_plan_write sio_volume_encode sio_encode_page
 *           sio_read_entry sio_write_entry
 *     192   sio_region_name
 *     320   sio_encode sio_region_name_padded
 *     448   sio_header_facts sio_entry_name sio_entry_name_and_kind
 *     512   sio_judge sio_next_write
 *     640   sio_validate sio_frame_slot sio_entry_to_raw
 *     704   sio_check_entry
 *     960   sio_winner_payload sio_plan_heal
 *
 * Measured on x86-64 Linux by examples/stack.c: the stack below a call is filled with a byte, and the lowest byte that changes
 * is looked for; then 16 are added and the sum is rounded up to 64. Largest and smallest slots and pages take the same. No
 * function calls itself, directly or through others, or through a pointer. memcpy and memset are counted as the C library has
 * them that was linked, glibc 2.36, where each takes its return address and no more; with one that takes more, as much more is
 * to be added. Not counted is what the loader takes where it binds them at their first call. The test measures again and fails
 * where a call takes more.
 *
 * Time. A call takes as long as its buffers are, but for two. sio_decode_page compares every two entries: the 681 that a page
 * of 64 KiB holds take 0.1 ms, 65,535 take 7 s. max_entries bounds them. sio_crc32c_gap goes through its zeros: 2^32 of them
 * take 2 s. (Measured on the machine of docs/BENCHMARK.md.)
 */
#ifndef STORE_IO_H
#define STORE_IO_H

#include <stddef.h>
#include <stdint.h>

#define SIO_VERSION 3

/* ---- Constants ----
 *
 * Each is the number that the crates have for the thing; the test compares them. SIO_.._VALUES is the length of a lent array,
 * and the constants before it are the places in that array.
 */

/* Slots. As an argument a slot is an index, 0 for A; in an answer A is 1, and 0 is none. A host that hands a slot of an answer
 * over as an index takes 1 from it. */
enum {
    SIO_INDEX_A = 0,
    SIO_INDEX_B = 1
};
enum {
    SIO_SLOT_NONE = 0,
    SIO_SLOT_A = 1,
    SIO_SLOT_B = 2
};

/* Refusals. */
enum {
    SIO_REFUSAL_SLOT_SIZE = 1,          /* log2 of the slot size outside 9 to 16 */
    SIO_REFUSAL_BUFFER_LENGTH = 2,      /* a slot buffer of another length than the slot size */
    SIO_REFUSAL_PAYLOAD_TOO_LARGE = 3,  /* a payload that does not fit after the header */
    SIO_REFUSAL_ZERO_GENERATION = 4,    /* generation 0 */
    SIO_REFUSAL_FORMAT = 5,             /* a format that is not 1 or 2, or a number in format 1 */
    SIO_REFUSAL_TRUNCATED = 6,          /* a read past the end of the buffer */
    SIO_REFUSAL_OVERFLOW = 7,           /* a write past the end of the buffer */
    SIO_REFUSAL_EMPTY = 8,              /* frames of no bytes */
    SIO_REFUSAL_NO_PAIR = 8,            /* no pair with that number */
    SIO_REFUSAL_OUTPUT_LENGTH = 9,      /* verdicts of another length than four bytes a pair */
    SIO_REFUSAL_OUT_OF_RANGE = 10,      /* not whole frames, a status above 12, facts above 2, a clean mark above 1, an operator
                                         * above 15, or one of pair 0 that is not 0 */
    SIO_REFUSAL_NO_OPERATOR = 10,       /* no operator with that number */
    SIO_REFUSAL_LENGTH = 11,            /* a record, page or entry of another length than its layout's, or a buffer too short */
    SIO_REFUSAL_DUPLICATE = 12,         /* two entries of a page with one sequence number */
    SIO_REFUSAL_UNALIGNED = 13,         /* an offset or a size that is not whole blocks */
    SIO_REFUSAL_FEATURES = 20,          /* features: none are defined */
    SIO_REFUSAL_FLAGS = 21,             /* flags: none are defined but two of an entry */
    SIO_REFUSAL_RESERVED = 22,          /* a byte that must be zero */
    SIO_REFUSAL_LOG2_BLOCK_SIZE = 23,   /* log2 of the block size outside 12 to 16 */
    SIO_REFUSAL_LOG2_TABLE_SLOT_SIZE = 24, /* log2 of the table slot's size below the block's or above 16 */
    SIO_REFUSAL_TABLE_OFFSET = 25,      /* a table offset that is not two blocks */
    SIO_REFUSAL_TABLE_PAGES = 26,       /* no table page, 2^30 or more, or a table that ends past the file */
    SIO_REFUSAL_ENTRIES_PER_PAGE = 27,  /* another number of entries per page than fit */
    SIO_REFUSAL_CLEAN_CLOSE = 28,       /* a clean mark above 1 in a record */
    SIO_REFUSAL_PAGE_INDEX = 29,        /* another page index than expected */
    SIO_REFUSAL_COUNT = 30,             /* a count of entries above the maximum or next_seq, or another than of those given */
    SIO_REFUSAL_SEQ = 31,               /* a sequence number that is not below next_seq */
    SIO_REFUSAL_LOG2_BLOCK = 32,        /* log2 of the block size in the limits outside 12 to 16 */
    SIO_REFUSAL_KIND = 33,              /* a kind that is not 1, 2 or 3 */
    SIO_REFUSAL_STATE = 34,             /* a state that is not Ready */
    SIO_REFUSAL_NAME = 35,              /* bytes that are not a name */
    SIO_REFUSAL_DATA_SIZE = 36,         /* more data than capacity */
    SIO_REFUSAL_SPAN = 37,              /* an empty span, or one past the file */
    SIO_REFUSAL_CAPACITY = 38,          /* a capacity above the span or of 0 */
    SIO_REFUSAL_HEADER = 39,            /* a header outside the span or before the table's end, or both in one place */
    SIO_REFUSAL_FOOTPRINT_SEQ = 40,     /* a footprint number of 0 or above the page's */
    SIO_REFUSAL_SLOT = 41,              /* a slot region with extents or sizes */
    SIO_REFUSAL_EXTENT_COUNT = 42,      /* another region without an extent */
    SIO_REFUSAL_TOO_MANY_PAIRS = 45,    /* frames of more bytes than 112 pairs have */
    SIO_REFUSAL_USED_UP = 48            /* no generation or no number is left below 2^64 */
};

/* The status of a slot. */
enum {
    SIO_STATUS_READ_ERROR = 0, /* the host's own, for a slot that could not be read */
    SIO_STATUS_BAD_LENGTH = 1,
    SIO_STATUS_BLANK = 2,
    SIO_STATUS_BAD_MAGIC = 3,
    SIO_STATUS_BAD_HEADER_CRC = 4,
    SIO_STATUS_UNSUPPORTED_VERSION = 5,
    SIO_STATUS_INCOMPATIBLE = 6,
    SIO_STATUS_MALFORMED = 7,
    SIO_STATUS_FOREIGN = 8,
    SIO_STATUS_WRONG_OBJECT = 9,
    SIO_STATUS_MISPLACED = 10,
    SIO_STATUS_BAD_PAYLOAD_CRC = 11,
    SIO_STATUS_VALID = 12 /* the good one */
};

/* What a slot's header shows. */
enum {
    SIO_FACTS_NONE = 0,
    SIO_FACTS_CHECKSUM = 1, /* its stored checksum */
    SIO_FACTS_FIELDS = 2    /* that, and the fields of a header that passes all but the payload checksum */
};

/* What sio_decide and sio_winner_payload say of a pair. */
enum {
    SIO_PAIR_CONFIRMED = 0,
    SIO_PAIR_UNCONFIRMED = 1,
    SIO_PAIR_LOST = 2,
    SIO_PAIR_REFUSED = 3,
    SIO_PAIR_EMPTY = 4,
    SIO_PAIR_FORK = 5
};

/* What the judge says of a pair: Empty and Fork are Lost. */
enum {
    SIO_STANDING_CONFIRMED = 0,
    SIO_STANDING_UNCONFIRMED = 1,
    SIO_STANDING_LOST = 2,
    SIO_STANDING_REFUSED = 3
};

/* What became of a slot, as the judge says. */
enum {
    SIO_SLOT_VERDICT_WINNER = 0,
    SIO_SLOT_VERDICT_NOTHING = 1,
    SIO_SLOT_VERDICT_OLDER_DAMAGED = 2,
    SIO_SLOT_VERDICT_IN_FLIGHT = 3,
    SIO_SLOT_VERDICT_DAMAGE = 4
};

/* A region's kind, its state, and the flags of its entry. */
enum {
    SIO_KIND_APPEND = 1,
    SIO_KIND_PAGE = 2,
    SIO_KIND_SLOT = 3
};
enum {
    SIO_STATE_READY = 1,
    SIO_STATE_RELEASED = 2 /* no entry has it */
};
enum {
    SIO_FLAG_UNWRITTEN = 1, /* unwritten blocks are allowed */
    SIO_FLAG_CAPPED = 2     /* growth ends at the capacity */
};

/* Formats, sizes of slots as log2, and widths in bytes. */
enum {
    SIO_FORMAT_1 = 1,
    SIO_FORMAT_2 = 2
};
enum {
    SIO_MIN_LOG2_SLOT_SIZE = 9,
    SIO_MAX_LOG2_SLOT_SIZE = 16
};
enum {
    SIO_HEADER_LEN = 128,    /* a slot's header */
    SIO_PART_LEN = 34,       /* a slot's part of a frame */
    SIO_FRAME_LEN = 69,      /* a pair's frame: the parts of A and of B, then its operator */
    SIO_FRAME_OPERATOR = 68, /* where the operator stands in a frame */
    SIO_MOST_OPERATOR = 15,  /* the highest operator */
    SIO_MOST_PAIRS = 112,    /* the most pairs of a store that is judged */
    SIO_VERDICT_LEN = 4,     /* a pair's verdict */
    SIO_VOLUME_LEN = 64,     /* a volume record */
    SIO_BASE_LEN = 48,       /* its base */
    SIO_PAGE_HEADER_LEN = 24,
    SIO_ENTRY_LEN = 96, /* an entry of a page */
    SIO_NAME_LEN = 24,  /* a stored name */
    SIO_VOLUME_ID_LEN = 16
};

/* A slot's part of a frame by its offsets, numbers little-endian: one byte each of status and facts, eight each of generation
 * and number, four each of the slot's own header checksum and of the previous one, eight of the owner generation. Under status
 * 12 all are given, else as many as the facts say, and no owner generation; the others are 0. */
enum {
    SIO_PART_STATUS = 0,
    SIO_PART_FACTS = 1,
    SIO_PART_GENERATION = 2,
    SIO_PART_META_SEQ = 10,
    SIO_PART_HEADER_CRC32C = 18,
    SIO_PART_PREV_HEADER_CRC32C = 22,
    SIO_PART_OWNER_GENERATION = 26
};

/* *found of sio_validate under 12, *values_a and *values_b of sio_winner_payload. */
enum {
    SIO_INFO_GENERATION = 0,
    SIO_INFO_OWNER_GENERATION = 1,
    SIO_INFO_HEADER_CRC32C = 2,
    SIO_INFO_PREV_HEADER_CRC32C = 3,
    SIO_INFO_RO_COMPAT_FLAGS = 4,
    SIO_INFO_COMPAT_FLAGS = 5,
    SIO_INFO_META_SEQ = 6,
    SIO_INFO_PAYLOAD_START = 7,
    SIO_INFO_PAYLOAD_LEN = 8,
    SIO_INFO_VALUES = 9
};

/* *found of sio_header_facts. */
enum {
    SIO_FACT_HEADER_CRC32C = 0,
    SIO_FACT_GENERATION = 1,
    SIO_FACT_META_SEQ = 2,
    SIO_FACT_PREV_HEADER_CRC32C = 3,
    SIO_FACT_VALUES = 4
};

/* *report of sio_decide. */
enum {
    SIO_DECIDED_STANDING = 0, /* SIO_PAIR_.. */
    SIO_DECIDED_WINNER = 1,   /* SIO_SLOT_.. */
    SIO_DECIDED_GENERATION_GAP = 2,
    SIO_DECIDED_CHAIN_BREAK = 3,
    SIO_DECIDED_NEXT_WRITE = 4, /* SIO_SLOT_.. */
    SIO_DECIDED_VALUES = 5
};

/* *report of sio_winner_payload: two statuses, and then as of sio_decide. */
enum {
    SIO_REPORT_A_STATUS = 0,
    SIO_REPORT_B_STATUS = 1,
    SIO_REPORT_STANDING = 2,
    SIO_REPORT_WINNER = 3,
    SIO_REPORT_GENERATION_GAP = 4,
    SIO_REPORT_CHAIN_BREAK = 5,
    SIO_REPORT_NEXT_WRITE = 6,
    SIO_REPORT_VALUES = 7
};

/* A verdict of sio_judge: the standing, the winner (SIO_SLOT_..), what became of A and of B (SIO_SLOT_VERDICT_..). */
enum {
    SIO_VERDICT_STANDING = 0,
    SIO_VERDICT_WINNER = 1,
    SIO_VERDICT_A = 2,
    SIO_VERDICT_B = 3
};

/* *judgement of sio_judge. */
enum {
    SIO_JUDGEMENT_HEAL_SLOT = 0, /* SIO_SLOT_.. */
    SIO_JUDGEMENT_HEAL_PAIR = 1,
    SIO_JUDGEMENT_WRITABLE = 2,
    SIO_JUDGEMENT_CLEAN = 3,
    SIO_JUDGEMENT_REFUSED = 4,
    SIO_JUDGEMENT_OWNERS_DIFFER = 5,
    SIO_JUDGEMENT_VALUES = 6
};

/* *plan of sio_plan_write and sio_next_write. */
enum {
    SIO_PLAN_SLOT = 0, /* SIO_SLOT_.. */
    SIO_PLAN_GENERATION = 1,
    SIO_PLAN_PREV_HEADER_CRC32C = 2,
    SIO_PLAN_META_SEQ = 3,
    SIO_PLAN_VALUES = 4
};

/* *plan of sio_plan_heal: the pair, and then as of sio_plan_write. */
enum {
    SIO_HEAL_PAIR = 0,
    SIO_HEAL_SLOT = 1,
    SIO_HEAL_GENERATION = 2,
    SIO_HEAL_PREV_HEADER_CRC32C = 3,
    SIO_HEAL_META_SEQ = 4,
    SIO_HEAL_VALUES = 5
};

/* *found of sio_volume_decode, and of sio_volume_base_decode the first seven. */
enum {
    SIO_VOLUME_LOG2_BLOCK_SIZE = 0,
    SIO_VOLUME_LOG2_TABLE_SLOT_SIZE = 1,
    SIO_VOLUME_DEVICE_INDEX = 2,
    SIO_VOLUME_OWNER_GENERATION = 3,
    SIO_VOLUME_TABLE_OFFSET = 4,
    SIO_VOLUME_CREATED_UNIX_S = 5,
    SIO_VOLUME_FEATURES = 6,
    SIO_BASE_VALUES = 7,
    SIO_VOLUME_TABLE_PAGES = 7,
    SIO_VOLUME_ENTRIES_PER_PAGE = 8,
    SIO_VOLUME_CLEAN_CLOSE = 9,
    SIO_VOLUME_FLAGS = 10,
    SIO_VOLUME_VALUES = 11
};

/* *found of sio_decode_page. */
enum {
    SIO_PAGE_INDEX = 0,
    SIO_PAGE_NEXT_SEQ = 1,
    SIO_PAGE_COUNT = 2,
    SIO_PAGE_ENTRIES_START = 3,
    SIO_PAGE_ENTRIES_LEN = 4,
    SIO_PAGE_VALUES = 5
};

/* *found of sio_read_entry: an entry as it is stored, but for its name. */
enum {
    SIO_RAW_SEQ = 0,
    SIO_RAW_KIND = 1,
    SIO_RAW_STATE = 2,
    SIO_RAW_FLAGS = 3,
    SIO_RAW_COMPAT_FLAGS = 4,
    SIO_RAW_TAG = 5,
    SIO_RAW_EXTENT_COUNT = 6,
    SIO_RAW_RESERVED = 7,
    SIO_RAW_HEADER_A = 8,
    SIO_RAW_HEADER_B = 9,
    SIO_RAW_DATA_SIZE = 10,
    SIO_RAW_CAPACITY = 11,
    SIO_RAW_SPAN_START = 12,
    SIO_RAW_SPAN_END = 13,
    SIO_RAW_FOOTPRINT_SEQ = 14,
    SIO_RAW_VALUES = 15
};

/* *found of sio_check_entry: the same without state and reserved bytes. */
enum {
    SIO_ENTRY_SEQ = 0,
    SIO_ENTRY_KIND = 1,
    SIO_ENTRY_FLAGS = 2,
    SIO_ENTRY_COMPAT_FLAGS = 3,
    SIO_ENTRY_TAG = 4,
    SIO_ENTRY_EXTENT_COUNT = 5,
    SIO_ENTRY_HEADER_A = 6,
    SIO_ENTRY_HEADER_B = 7,
    SIO_ENTRY_DATA_SIZE = 8,
    SIO_ENTRY_CAPACITY = 9,
    SIO_ENTRY_SPAN_START = 10,
    SIO_ENTRY_SPAN_END = 11,
    SIO_ENTRY_FOOTPRINT_SEQ = 12,
    SIO_ENTRY_VALUES = 13
};

/* *span of sio_reserved_span. */
enum {
    SIO_SPAN_START = 0,
    SIO_SPAN_END = 1,
    SIO_SPAN_VALUES = 2
};

#ifdef __cplusplus
extern "C" {
#endif

/* The number of the interface that the archive has. */
uint32_t sio_version(void);

/* ---- CRC-32C (RFC 3720, section 12.1) ---- */

/* The checksum of bytes. No bytes have the checksum 0. */
uint32_t sio_crc32c(const uint8_t *bytes, size_t len);

/* The checksum crc carried on over bytes: from the checksum of other bytes, that of those bytes followed by these. */
uint32_t sio_crc32c_append(uint32_t crc, const uint8_t *bytes, size_t len);

/* The checksum of head, `zeros` bytes of 0, and tail, one after the other. */
uint32_t sio_crc32c_gap(const uint8_t *head, size_t head_len, size_t zeros, const uint8_t *tail, size_t tail_len);

/* ---- Reading: little-endian numbers and runs of bytes at a position ----
 *
 * Each function reads at *position and moves it past what it read, or refuses with 6 where fewer bytes are left. A
 * position past the end of the buffer is refused too, also for a run of no bytes. At a refusal *position and the value are
 * as they were.
 */

/* How many bytes are left to read. */
size_t sio_remaining(const uint8_t *bytes, size_t len, size_t position);

uint32_t sio_read_u8(const uint8_t *bytes, size_t len, size_t *position, uint8_t *value);
uint32_t sio_read_u16(const uint8_t *bytes, size_t len, size_t *position, uint16_t *value);
uint32_t sio_read_u32(const uint8_t *bytes, size_t len, size_t *position, uint32_t *value);
uint32_t sio_read_u64(const uint8_t *bytes, size_t len, size_t *position, uint64_t *value);

/* A run of `count` bytes: *start is where it begins, so that the run is bytes + *start. */
uint32_t sio_read_bytes(const uint8_t *bytes, size_t len, size_t *position, size_t count, size_t *start);

/* 16 bytes (a volume id) and 24 bytes (a name), copied to value. */
uint32_t sio_read_array16(const uint8_t *bytes, size_t len, size_t *position, uint8_t (*value)[SIO_VOLUME_ID_LEN]);
uint32_t sio_read_array24(const uint8_t *bytes, size_t len, size_t *position, uint8_t (*value)[SIO_NAME_LEN]);

/* ---- Writing: the same, into a lent buffer ----
 *
 * Each function writes at *position and moves it past what it wrote, or refuses with 7 where fewer bytes are left, and
 * for a position past the end of the buffer. No byte besides the written ones changes, and at a refusal none does: there is
 * no partial write.
 */

uint32_t sio_write_u8(uint8_t *bytes, size_t len, size_t *position, uint8_t value);
uint32_t sio_write_u16(uint8_t *bytes, size_t len, size_t *position, uint16_t value);
uint32_t sio_write_u32(uint8_t *bytes, size_t len, size_t *position, uint32_t value);
uint32_t sio_write_u64(uint8_t *bytes, size_t len, size_t *position, uint64_t value);

/* All of src. */
uint32_t sio_write_bytes(uint8_t *bytes, size_t len, size_t *position, const uint8_t *src, size_t src_len);

/* `count` bytes of 0. */
uint32_t sio_write_zeros(uint8_t *bytes, size_t len, size_t *position, size_t count);

/* ---- Slots ----
 *
 * A slot is named by its identity and size: the volume id as two numbers, its first eight bytes, little-endian, in volume0 and
 * the others in volume1; the object; the slot's offset; its index (SIO_INDEX_..), 0 for A and anything else for B; log2 of its
 * size; the format, 1 or 2; and for reading whether it is numbered, 0 for no and anything else for yes.
 */

/* Encodes a complete slot: header, payload, zeros. 0 with the header's checksum in *header_crc32c, or a refusal, 1 to 5 in
 * this order; a refusal leaves slot and *header_crc32c as they were. */
uint32_t sio_encode(uint8_t *slot, size_t len, uint64_t volume0, uint64_t volume1, uint64_t object_id,
                    uint64_t generation, uint64_t owner_generation, uint64_t slot_offset, uint32_t index,
                    uint8_t log2_slot_size, uint32_t prev_header_crc32c, uint16_t format_major, uint64_t meta_seq,
                    uint32_t compat_flags, const uint8_t *payload, size_t payload_len, uint32_t *header_crc32c);

/* The status of a slot, of any length and content, 1 to 12. All of *found is written: under 12 the values SIO_INFO_..; under 5
 * the format found and under 6 the flags found, then zeros; else zeros. */
uint32_t sio_validate(const uint8_t *slot, size_t len, uint64_t volume0, uint64_t volume1, uint64_t object_id,
                      uint64_t slot_offset, uint32_t index, uint8_t log2_slot_size, uint16_t format_major,
                      uint32_t numbered, uint64_t (*found)[SIO_INFO_VALUES]);

/* What a slot's header shows, SIO_FACTS_.., whether or not the slot is Valid. All of *found is written, SIO_FACT_..: the stored
 * checksum, the generation, the number and the previous header's checksum; those not shown are 0. */
uint32_t sio_header_facts(const uint8_t *slot, size_t len, uint64_t volume0, uint64_t volume1, uint64_t object_id,
                          uint64_t slot_offset, uint32_t index, uint8_t log2_slot_size, uint16_t format_major,
                          uint32_t numbered, uint64_t (*found)[SIO_FACT_VALUES]);

/* A slot's part of a frame, for the judge, SIO_PART_..: all of *part is written, and the slot's status is returned. The part
 * of a slot that could not be read is 34 bytes of 0, written by the host. */
uint32_t sio_frame_slot(const uint8_t *slot, size_t len, uint64_t volume0, uint64_t volume1, uint64_t object_id,
                        uint64_t slot_offset, uint32_t index, uint8_t log2_slot_size, uint16_t format_major,
                        uint32_t numbered, uint8_t (*part)[SIO_PART_LEN]);

/* ---- Pairs ---- */

/* The current version of a pair, from the statuses of both slots as sio_validate gives them (0 for a slot that could not be
 * read), each with its generation, header checksum and previous header's checksum, which count under 12 only. Refuses a status
 * above 12 with 10 and leaves *report; else 0, and all of *report is written, SIO_DECIDED_..:
 *
 *    0  0 Confirmed, 1 Unconfirmed, 2 Lost, 3 Refused, 4 Empty, 5 Fork
 *    1  the winner: 0 none, 1 A, 2 B
 *    2  1 where both are Valid with other generations that are not consecutive; a Fork has one generation twice, and 0 here
 *    3  1 where they are consecutive and the winner does not record the other's header checksum
 *    4  the slot that the next update writes: 0 none, 1 A, 2 B
 */
uint32_t sio_decide(uint32_t a_status, uint64_t a_generation, uint32_t a_header_crc32c, uint32_t a_prev_header_crc32c,
                    uint32_t b_status, uint64_t b_generation, uint32_t b_header_crc32c, uint32_t b_prev_header_crc32c,
                    uint8_t (*report)[SIO_DECIDED_VALUES]);

/* The winner's payload: both slots of a pair are validated, and the payload of the slot that won is named as a part of its own
 * bytes. The slots share volume id, object, log2 of the size, format and numbered; each has its offset. Returns the winner's
 * slot (0 none, 1 A, 2 B), and all of the others is written: *start and *payload_len say where the payload lies in that slot
 * (0 and 0 without a winner); *values_a and *values_b are as *found of sio_validate; *report, SIO_REPORT_.., holds the status
 * codes of A and of B, and then *report of sio_decide. */
uint32_t sio_winner_payload(const uint8_t *a, size_t a_len, const uint8_t *b, size_t b_len, uint64_t volume0,
                            uint64_t volume1, uint64_t object_id, uint64_t a_offset, uint64_t b_offset,
                            uint8_t log2_slot_size, uint16_t format_major, uint32_t numbered,
                            uint64_t (*values_a)[SIO_INFO_VALUES], uint64_t (*values_b)[SIO_INFO_VALUES],
                            uint8_t (*report)[SIO_REPORT_VALUES], size_t *start, size_t *payload_len);

/* ---- The store ----
 *
 * A store is a row of pairs: pair 0 holds the volume record, each other pair a table page. Each pair is of one operator, a
 * number from 0 to SIO_MOST_OPERATOR, pair 0 of operator 0. The writes of each operator are numbered by themselves. Which pair
 * is whose is the host's to know: no slot says it. A host that has one operator alone writes 0 for every pair.
 *
 * What follows is the protocol of a host that opens, writes, heals and closes a store. Only such a host has what sio_next_write
 * promises.
 *
 * Make. Zeros are written to both slots of pair 0 and then to those of the pages, then each page's first record, and pair 0's
 * last, each by the plan of sio_plan_write. Where it was cut before that record stands whole, it is begun anew.
 *
 * Open.
 *   1. Read both slots of pair 0. Its record is the payload that sio_winner_payload names; sio_volume_decode gives the fields,
 *      the clean mark among them, and sio_check_file_len holds the table to the file. Where there is no winner or one of them
 *      refuses, there is no store to open; nor where the record counts more than 111 table pages, since a store of more than
 *      SIO_MOST_PAIRS pairs is not judged.
 *   2. Read every slot of every pair whole, and fill its part of the frames with sio_frame_slot. A slot that could not be read
 *      is 34 bytes of 0, and never a slot of zeros. Into byte SIO_FRAME_OPERATOR of each frame the host writes the pair's
 *      operator, 0 for pair 0. It is stored nowhere, so the host has to hand over the same one for a pair each time.
 *   3. Judge: sio_judge, with the clean mark of that record.
 *   4. Take a pair's record where its verdict names a winner: the payload that sio_winner_payload names of the same bytes. It
 *      counts where its decoder accepts it: sio_volume_decode of pair 0, sio_decode_page of a page, and of each of its entries
 *      sio_check_entry.
 *
 * Write, by the first of these that is met:
 *   1. The store is not writable: nothing is written.
 *   2. A slot is named for healing: it is healed, and nothing else is written before.
 *   3. The clean mark is set: pair 0 is written, its record with the mark cleared and the owner generation raised, as at each
 *      opening for writing.
 *   4. Else the next record of any pair: sio_next_write encodes it, or sio_plan_write plans it for sio_encode. To close the
 *      store, pair 0 is written last, its record with the mark set.
 * A rewrite carries the compatible flags of the pair's winner on. A pair whose winner has a read-only flag
 * (SIO_INFO_RO_COMPAT_FLAGS is not 0) may be read, and is neither written nor healed.
 *
 * Heal: sio_plan_heal names the pair and the slot, and sio_encode is given its plan, the winner's payload as it was read, and
 * the winner's compatible flags. Then the store is read and judged again.
 *
 * Durable: a write is all bytes of one slot at its offset. It is durable before the next write to the store begins, and the
 * slot's part of the frames is filled anew before the next one is planned.
 *
 * Decode what is encoded, before it is written: encoders check nothing of what decoders ask. sio_volume_encode,
 * sio_volume_base_encode and sio_write_entry look at the buffer's length alone, sio_encode_page at lengths and the count, and
 * sio_encode at what it refuses. No payload is looked into.
 *
 * A host never
 *   - writes another slot than the planned or the named one, a part of a slot, or bytes of a slot in place;
 *   - makes up a generation, a number or a previous checksum, or takes one out of a frame;
 *   - writes by a plan that is older than the last write;
 *   - begins a write before the last one is durable, or while another host has the store open for writing;
 *   - hands over another clean mark than that of pair 0's record, or another operator for a pair than for its writes before;
 *   - writes a record that its decoder refuses.
 */

/* Judges a whole store from its frames, 69 bytes a pair: the parts of slot A and of slot B, as sio_frame_slot fills them, and
 * the pair's operator, as the host writes it. Pair 0 is the volume record, and clean is its clean mark, 0 or 1. Refuses with 8
 * (no bytes), 45 (more than 7,728 bytes, which are SIO_MOST_PAIRS frames), 10 (not whole frames), 9 (verdicts_len) or 10 (a
 * value out of range, as an operator above 15, or one of pair 0 that is not 0), in this order, and leaves verdicts and
 * *judgement; else 0, and all of both is written.
 *
 * verdicts, four bytes a pair, SIO_VERDICT_..: the standing (0 Confirmed, 1 Unconfirmed, 2 Lost, 3 Refused), the winner
 * (0 none, 1 A, 2 B), what became of A and of B (0 Winner, 1 Nothing, 2 OlderDamaged, 3 InFlight, 4 Damage).
 *
 * judgement, SIO_JUDGEMENT_..: the slot to heal (0 none, 1 A, 2 B), its pair (0 without a heal), whether the store may be
 * written, whether the clean mark counted, whether a pair is refused, whether two winners, any two, have different owner
 * generations.
 */
uint32_t sio_judge(const uint8_t *frames, size_t frames_len, uint8_t clean, uint8_t *verdicts, size_t verdicts_len,
                   uint64_t (*judgement)[SIO_JUDGEMENT_VALUES]);

/* ---- The next write ----
 *
 * What a correct write is: which slot it goes to, and its generation, previous checksum and number. frames are as for
 * sio_judge. All five refuse as the judge does first, but 9: 8 (no bytes), 45 (more than 7,728 bytes), 10 (not whole frames),
 * 10 (a value out of range, the mark of sio_plan_heal too), and then as said at each. A refusal leaves every number, plan,
 * checksum and byte as it was. The plans take the operator from the pair's frame.
 *
 * They say what to write, not whether: that is the protocol's. What a pair is, sio_decide says of the two parts of its frame,
 * and not the judge, whose Lost takes in Empty and Fork.
 *
 * Promised: of a sound store, a write of what sio_next_write encodes, of pair 0 where the clean mark is 1 and of any pair where
 * it is 0, to the slot that it names, of a payload that the pair's decoder accepts, cut after any number of bytes but one to
 * seven, or with any of its aligned sectors of 512 bytes whole and the others not begun, and without an accident
 * (docs/FORMAT.md, "The sound store and the cut"), leaves a store that is judged writable, and of every pair the last record
 * that was written whole. A write that is finished leaves a sound store.
 *
 * Promised of the life of a store: where a host begins with a sound store, hands over the clean mark of the record that it reads
 * from pair 0, writes as sio_plan_heal says wherever it names a slot and else as sio_plan_write says, and no pair but 0 while
 * that mark is 1, then after each write, finished or cut in either way without an accident (docs/FORMAT.md, "The life of a
 * store"), the store is judged writable, and of every pair the record that is read is the last one finished or one begun after
 * it, whole. Writes of pair 0 set the mark and clear it, finished or cut, so the store is closed and opened any number of
 * times; where no slot is named the mark counts as it was read, and after a finished write of pair 0 it is that record's. A
 * write that heals may be cut too, any number of times.
 *
 * Promised of a store that is made: from slots that are Blank, as zeros are, and are read as numbered in format 2, each pair
 * written as sio_plan_write says, with a payload that its decoder accepts, the pages in any order and pair 0 last, it is judged
 * not writable under either clean mark, and no slot is named, until the record of pair 0 stands whole, wherever a write is cut
 * without an accident (docs/FORMAT.md, "The creation of a store"). Then it is sound.
 */

/* The number of an operator's next write: one above the highest of all numbered slots of its pairs, 1 where there is none. The
 * numbered slots are those under 12, and those under 11 with facts 2. Then refused: 10 for an operator_id above 15; 48 where
 * the number would be 2^64. */
uint32_t sio_next_number(const uint8_t *frames, size_t frames_len, uint8_t operator_id, uint64_t *number);

/* One above the numbers of all winners of an operator's pairs, 1 where there is none. Then refused as by sio_next_number. It is
 * the number of a write that heals a pair of that operator, the one that sio_plan_heal gives, in every store that a host's
 * writes lead to (docs/FORMAT.md, "The life of a store"). In a damaged store it is not enough: a host heals by sio_plan_heal
 * alone. */
uint32_t sio_heal_number(const uint8_t *frames, size_t frames_len, uint8_t operator_id, uint64_t *number);

/* The next write of the pair with that number, from 0: plan, SIO_PLAN_.., is the slot (1 A, 2 B), the generation, the previous
 * header's checksum and the number. The slot is that of sio_decide's byte 4, the generation one above the winner's, the
 * checksum the winner's own, the number that of sio_next_number for the pair's operator; of an Empty pair slot 1, generation 1
 * and checksum 0. Of a Fork, a Lost and a Refused pair four zeros. Then refused: 8 for a pair beyond the row; 48 where a slot
 * is planned and its generation or number would be 2^64. */
uint32_t sio_plan_write(const uint8_t *frames, size_t frames_len, size_t pair, uint64_t (*plan)[SIO_PLAN_VALUES]);

/* The write that heals, under the clean mark, 0 or 1: plan, SIO_HEAL_.., is the pair, the slot that the judge names (1 A, 2 B),
 * the generation one above that of the pair's winner, the winner's own checksum, and one above the highest number of all
 * numbered slots of the pair's operator but the named one. Five zeros where the judge names none. The payload to write is the
 * winner's. Then refused: 48 where a slot is named and its generation or number would be 2^64. */
uint32_t sio_plan_heal(const uint8_t *frames, size_t frames_len, uint8_t clean, uint64_t (*plan)[SIO_HEAL_VALUES]);

/* The plan of sio_plan_write, encoded in format 2 into slot, a buffer of 2^log2_slot_size bytes, with the header's checksum
 * in *header_crc32c. The pair's slots are read as numbered in format 2 with this volume id, object and size, A at a_offset
 * and B at b_offset. Refused in the order of sio_plan_write, then, where a slot is planned, with 1, 2 or 3 as by sio_encode.
 * Where none is planned plan is four zeros, and slot and *header_crc32c are as they were. */
uint32_t sio_next_write(const uint8_t *frames, size_t frames_len, size_t pair, uint64_t volume0, uint64_t volume1,
                        uint64_t object_id, uint64_t a_offset, uint64_t b_offset, uint8_t log2_slot_size,
                        uint64_t owner_generation, uint32_t compat_flags, const uint8_t *payload, size_t payload_len,
                        uint8_t *slot, size_t slot_len, uint64_t (*plan)[SIO_PLAN_VALUES], uint32_t *header_crc32c);

/* ---- Region names ----
 *
 * A name is 1 to 24 bytes of UTF-8 (RFC 3629), none of them below 0x20 and none 0x7F, stored in 24 bytes with zeros after it.
 * Bytes that are none are refused with 35, and *stored and *stored_len are as they were. The functions on entries go by the
 * same rule; those on pages look at no name.
 */

/* Stores a name and gives its length. */
uint32_t sio_region_name(const uint8_t *name, size_t name_len, uint8_t (*stored)[SIO_NAME_LEN], uint8_t *stored_len);

/* The same from 24 stored bytes: the name ends at the first zero, and all after it is zero. */
uint32_t sio_region_name_padded(const uint8_t *raw, uint8_t (*stored)[SIO_NAME_LEN], uint8_t *stored_len);

/* ---- The volume record ---- */

/* Decodes a record of 64 bytes. 0 with all of *found written, or a refusal in this order: 11 (not 64 bytes), 20, 21, 22 (at 4
 * and 40), 23, 24, 13, 22 (at 55 and 60), 25, 26, 27, 28. found is as SIO_VOLUME_.. says. */
uint32_t sio_volume_decode(const uint8_t *bytes, size_t len, uint64_t (*found)[SIO_VOLUME_VALUES]);

/* Encodes a record into the first 64 bytes of bytes, any clean_close but 0 as 1: 0 with 64 in *written, or 11 for a shorter
 * buffer. */
uint32_t sio_volume_encode(uint8_t *bytes, size_t len, uint8_t log2_block_size, uint8_t log2_table_slot_size,
                           uint16_t device_index, uint64_t owner_generation, uint64_t table_offset,
                           uint64_t created_unix_s, uint64_t features, uint32_t table_pages, uint16_t entries_per_page,
                           uint32_t clean_close, uint32_t flags, size_t *written);

/* The 48 bytes that both formats have, from a buffer of 48 bytes or more: 0 with the first seven of those numbers in *found,
 * or 11 (below 48 bytes), 20, 22, 23, 24, 13. */
uint32_t sio_volume_base_decode(const uint8_t *bytes, size_t len, uint64_t (*found)[SIO_BASE_VALUES]);

/* Encodes them into the first 48 bytes: 0 with 48 in *written, or 11 for a shorter buffer. */
uint32_t sio_volume_base_encode(uint8_t *bytes, size_t len, uint8_t log2_block_size, uint8_t log2_table_slot_size,
                                uint16_t device_index, uint64_t owner_generation, uint64_t table_offset,
                                uint64_t created_unix_s, uint64_t features, size_t *written);

/* Entries of a page in a table slot of that size; a log2 outside 12 to 16 counts as the nearer end. */
uint16_t sio_entries_per_page(uint8_t log2_table);

/* Where the table ends: 0 with two blocks and two table slots a page in *end, or 23, 24. */
uint32_t sio_table_end(uint8_t log2_block_size, uint8_t log2_table_slot_size, uint32_t table_pages, uint64_t *end);

/* 0 where the table ends within a file of that length, or 23, 24, 26. */
uint32_t sio_check_file_len(uint8_t log2_block_size, uint8_t log2_table_slot_size, uint32_t table_pages,
                            uint64_t file_len);

/* ---- Table pages ---- */

/* Decodes a page with its expected index and the most entries that it may have. 0 with all of *found written, or a refusal in
 * this order: 11 (below 24 bytes), 22, 29, 30, 11 (length), then by entry 31, 22 (at 38), 12. found, SIO_PAGE_..: page
 * index, next_seq, count, and where the entries begin in bytes and how long they are, 96 bytes each. */
uint32_t sio_decode_page(const uint8_t *bytes, size_t len, uint32_t page_index, uint16_t max_entries,
                         uint64_t (*found)[SIO_PAGE_VALUES]);

/* Encodes a page from its entries, 96 bytes each, as they are but for zeros at 38: 0 with the page's length in *written, or 11
 * (over 65,535 entries, or a rest below 96 bytes), 30 (count), 11 (bytes too short). What lies after the page stays. */
uint32_t sio_encode_page(uint8_t *bytes, size_t len, uint32_t page_index, uint32_t next_seq, uint16_t count,
                         const uint8_t *entries, size_t entries_len, size_t *written);

/* ---- Table entries ----
 *
 * An entry is taken from the first 96 bytes of entry; fewer are refused with 11, before everything else.
 */

/* An entry's fields, checked or not: 0 with all of *found, SIO_RAW_.., and *name written. */
uint32_t sio_read_entry(const uint8_t *entry, size_t len, uint64_t (*found)[SIO_RAW_VALUES], uint8_t (*name)[SIO_NAME_LEN]);

/* Writes an entry's fields to the first 96 bytes, zeros at 38: 0 with 96 in *written, or 11 for a shorter buffer. */
uint32_t sio_write_entry(uint8_t *bytes, size_t len, uint32_t seq, uint8_t kind, uint8_t state, uint8_t flags,
                         uint8_t compat_flags, const uint8_t *name, uint32_t tag, uint16_t extent_count,
                         uint64_t header_a, uint64_t header_b, uint64_t data_size, uint64_t capacity,
                         uint64_t span_start, uint64_t span_end, uint64_t footprint_seq, size_t *written);

/* Checks an entry by itself, in a container of blocks of 2^log2_block bytes whose table ends at table_end, of file_len bytes,
 * from a page with the number page_meta_seq. 0 with all of *found, *name and *name_len written, or a refusal in this order:
 * 21, 32, 33, 34, 35, 36, 37, 38, 13 (span), for header A and then B 13, 39, then 39 (equal), 40, 41 or 42 and 38, 13 (sizes).
 * found is as SIO_ENTRY_.. says. */
uint32_t sio_check_entry(const uint8_t *entry, size_t len, uint8_t log2_block, uint64_t table_end, uint64_t file_len,
                         uint64_t page_meta_seq, uint64_t (*found)[SIO_ENTRY_VALUES], uint8_t (*name)[SIO_NAME_LEN],
                         uint8_t *name_len);

/* The same checks, and the accepted entry as it is stored in *raw. */
uint32_t sio_entry_to_raw(const uint8_t *entry, size_t len, uint8_t log2_block, uint64_t table_end, uint64_t file_len,
                          uint64_t page_meta_seq, uint8_t (*raw)[SIO_ENTRY_LEN]);

/* The entry's name where it decodes, whatever else fails: 0 with its length in *name_len, 0 where there is none, and all of
 * *name written, zeros after the name. */
uint32_t sio_entry_name(const uint8_t *entry, size_t len, uint8_t (*name)[SIO_NAME_LEN], uint8_t *name_len);

/* Name and kind where both decode: *kind is 1, 2 or 3, or 0 where one does not, and then there is no name. */
uint32_t sio_entry_name_and_kind(const uint8_t *entry, size_t len, uint8_t *kind, uint8_t (*name)[SIO_NAME_LEN],
                                 uint8_t *name_len);

/* The bytes that an entry keeps reserved although it fails its checks: its span widened to whole blocks, then clamped to the
 * file and to past the table. 0 with start and end in *span, both 0 where nothing is left; a log2_block outside 12 to 16
 * counts as the nearer end. */
uint32_t sio_reserved_span(const uint8_t *entry, size_t len, uint8_t log2_block, uint64_t table_end, uint64_t file_len,
                           uint64_t (*span)[SIO_SPAN_VALUES]);

#ifdef __cplusplus
}
#endif

#endif
