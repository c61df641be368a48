/* stack.c: measures how much stack each function of store_io.h takes.
 *
 * Method. Each call runs on a stack of its own that was filled with one byte before; afterwards the lowest byte that has
 * changed is looked for. The distance from there up to the frame of a function that does nothing but this call is what the
 * call took, arguments on the stack and return address included. Each call is measured with two filling bytes, as a byte
 * written with the filling's own value does not show, on the largest slots and pages and on the smallest ones. It is made
 * once before that: memcpy and memset may be bound at their first call, and that is the loader's stack.
 *
 * Prints a line a function: its name, the bytes on the largest inputs, the bytes on the smallest ones. The exit status is 1
 * where a call did not do what it was made for. */
#define _XOPEN_SOURCE 700
#include <stdint.h>
#include <stdio.h>
#include <string.h>
#include <ucontext.h>
#include "store_io.h"

#define STACK 65536
#define MAX_SLOT 65536
#define PART SIO_PART_LEN
#define ENTRY SIO_ENTRY_LEN
#define V0 1
#define V1 2

static _Alignas(64) uint8_t stack[STACK];
static ucontext_t caller;
static ucontext_t callee;
static uintptr_t frame;
static uint64_t result;

/* The inputs, and what the calls write. */
static uint8_t log2_slot, log2_table;
static size_t size, position, start, count, page_len, pairs;
static uint16_t entries_count;
static uint8_t a[MAX_SLOT], b[MAX_SLOT], out[MAX_SLOT], body[MAX_SLOT], page[MAX_SLOT], entries[MAX_SLOT];
static uint8_t frames[SIO_MOST_PAIRS][SIO_FRAME_LEN], verdicts[SIO_MOST_PAIRS][SIO_VERDICT_LEN];
static uint8_t record[64];
static uint8_t value8, kind, name[24], stored[24], id[16], part[PART], report5[5], report7[7], raw[ENTRY];
static const uint8_t letters[25] = "abcdefghijklmnopqrstuvwx";
static uint16_t value16;
static uint32_t value32, crc;
static uint64_t value64, found2[2], found4[4], plan[4], found5[5], found7[7], found9[9], other9[9], found11[11], found13[13];
static uint64_t found15[15], judgement[SIO_JUDGEMENT_VALUES];

#define SLOT_A V0, V1, 0, 0, 0, log2_slot, 2, 1
#define LIMITS 12, 16384, 32768
#define NAME letters

/* A function that makes one call and nothing else. */
#define CALL(function, ...)                            \
    static void call_##function(void) {                \
        frame = (uintptr_t)__builtin_frame_address(0); \
        result = function(__VA_ARGS__);                \
    }

CALL(sio_version, )
CALL(sio_crc32c, a, size)
CALL(sio_crc32c_append, 1, a, size)
CALL(sio_crc32c_gap, a, 8, 4, a + 12, size - 12)
CALL(sio_remaining, a, size, position)
CALL(sio_read_u8, a, size, &position, &value8)
CALL(sio_read_u16, a, size, &position, &value16)
CALL(sio_read_u32, a, size, &position, &value32)
CALL(sio_read_u64, a, size, &position, &value64)
CALL(sio_read_bytes, a, size, &position, size, &start)
CALL(sio_read_array16, a, size, &position, &id)
CALL(sio_read_array24, a, size, &position, &name)
CALL(sio_write_u8, out, size, &position, 1)
CALL(sio_write_u16, out, size, &position, 1)
CALL(sio_write_u32, out, size, &position, 1)
CALL(sio_write_u64, out, size, &position, 1)
CALL(sio_write_bytes, out, size, &position, a, size - 1)
CALL(sio_write_zeros, out, size, &position, size)
CALL(sio_encode, out, size, V0, V1, 0, 1, 1, 0, 0, log2_slot, 0, 2, 1, 0, body, size - 128, &crc)
CALL(sio_validate, a, size, SLOT_A, &found9)
CALL(sio_header_facts, a, size, SLOT_A, &found4)
CALL(sio_frame_slot, a, size, SLOT_A, &part)
CALL(sio_decide, 12, 2, 22, 11, 12, 1, 11, 0, &report5)
CALL(sio_winner_payload, a, size, b, size, V0, V1, 0, 0, size, log2_slot, 2, 1, &found9, &other9, &report7, &start, &count)
CALL(sio_judge, frames[0], pairs * sizeof frames[0], 0, verdicts[0], pairs * sizeof verdicts[0], &judgement)
CALL(sio_next_number, frames[0], pairs * sizeof frames[0], 0, &value64)
CALL(sio_heal_number, frames[0], pairs * sizeof frames[0], 0, &value64)
CALL(sio_plan_write, frames[0], pairs * sizeof frames[0], 0, &plan)
CALL(sio_plan_heal, frames[0], pairs * sizeof frames[0], 0, &found5)
CALL(sio_next_write, frames[0], pairs * sizeof frames[0], 0, V0, V1, 0, 0, size, log2_slot, 1, 0, body, size - 128, out, size, &plan, &crc)
CALL(sio_region_name, letters, 24, &stored, &value8)
CALL(sio_region_name_padded, NAME, &stored, &value8)
CALL(sio_volume_decode, record, sizeof record, &found11)
CALL(sio_volume_encode, out, 64, 12, log2_table, 0, 1, 8192, 3, 0, 1, entries_count, 0, 0, &count)
CALL(sio_volume_base_decode, record, sizeof record, &found7)
CALL(sio_volume_base_encode, out, 64, 12, log2_table, 0, 1, 8192, 3, 0, &count)
CALL(sio_entries_per_page, log2_table)
CALL(sio_table_end, 12, log2_table, 1, &value64)
CALL(sio_check_file_len, 12, log2_table, 1, UINT64_MAX)
CALL(sio_decode_page, page, page_len, 0, entries_count, &found5)
CALL(sio_encode_page, out, sizeof out, 0, entries_count, entries_count, entries, entries_count * (size_t)ENTRY, &count)
CALL(sio_read_entry, entries, ENTRY, &found15, &name)
CALL(sio_write_entry, out, ENTRY, 1, 1, 1, 0, 0, NAME, 0, 1, 16384, 20480, 512, 4096, 16384, 28672, 1, &count)
CALL(sio_check_entry, entries, ENTRY, LIMITS, 9, &found13, &name, &value8)
CALL(sio_entry_to_raw, entries, ENTRY, LIMITS, 9, &raw)
CALL(sio_entry_name, entries, ENTRY, &name, &value8)
CALL(sio_entry_name_and_kind, entries, ENTRY, &kind, &name, &value8)
CALL(sio_reserved_span, entries, ENTRY, LIMITS, &found2)

enum { ANY = 1000 }; /* a result that is not a refusal, a status or a slot */

#define ROW(function, expected) {#function, call_##function, expected}

static const struct row {
    const char *name;
    void (*call)(void);
    uint64_t expected;
} rows[] = {
    ROW(sio_version, SIO_VERSION),
    ROW(sio_crc32c, ANY),
    ROW(sio_crc32c_append, ANY),
    ROW(sio_crc32c_gap, ANY),
    ROW(sio_remaining, ANY),
    ROW(sio_read_u8, 0),
    ROW(sio_read_u16, 0),
    ROW(sio_read_u32, 0),
    ROW(sio_read_u64, 0),
    ROW(sio_read_bytes, 0),
    ROW(sio_read_array16, 0),
    ROW(sio_read_array24, 0),
    ROW(sio_write_u8, 0),
    ROW(sio_write_u16, 0),
    ROW(sio_write_u32, 0),
    ROW(sio_write_u64, 0),
    ROW(sio_write_bytes, 0),
    ROW(sio_write_zeros, 0),
    ROW(sio_encode, 0),
    ROW(sio_validate, 12),
    ROW(sio_header_facts, 2),
    ROW(sio_frame_slot, 12),
    ROW(sio_decide, 0),
    ROW(sio_winner_payload, 2),
    ROW(sio_judge, 0),
    ROW(sio_next_number, 0),
    ROW(sio_heal_number, 0),
    ROW(sio_plan_write, 0),
    ROW(sio_plan_heal, 0),
    ROW(sio_next_write, 0),
    ROW(sio_region_name, 0),
    ROW(sio_region_name_padded, 0),
    ROW(sio_volume_decode, 0),
    ROW(sio_volume_encode, 0),
    ROW(sio_volume_base_decode, 0),
    ROW(sio_volume_base_encode, 0),
    ROW(sio_entries_per_page, ANY),
    ROW(sio_table_end, 0),
    ROW(sio_check_file_len, 0),
    ROW(sio_decode_page, 0),
    ROW(sio_encode_page, 0),
    ROW(sio_read_entry, 0),
    ROW(sio_write_entry, 0),
    ROW(sio_check_entry, 0),
    ROW(sio_entry_to_raw, 0),
    ROW(sio_entry_name, 0),
    ROW(sio_entry_name_and_kind, 0),
    ROW(sio_reserved_span, 0),
};

/* Generation 1 in slot A, generation 2 in slot B, both with as much payload as fits. */
static uint32_t prepare_pair(void) {
    memset(body, 7, sizeof body);
    uint32_t refusal = sio_encode(a, size, V0, V1, 0, 1, 1, 0, 0, log2_slot, 0, 2, 1, 0, body, size - 128, &crc);
    return refusal | sio_encode(b, size, V0, V1, 0, 2, 1, size, 1, log2_slot, crc, 2, 2, 0, body, size - 128, &crc);
}

/* A page with as many entries as fit. */
static uint32_t prepare_page(void) {
    uint32_t refusal = 0;
    entries_count = sio_entries_per_page(log2_table);
    for (uint32_t i = 0; i < entries_count; i++) {
        refusal |= sio_write_entry(entries + i * (size_t)ENTRY, ENTRY, i, 1, 1, 0, 0, NAME, 0, 1, 16384, 20480, 512, 4096,
                                   16384, 28672, 1, &count);
    }
    return refusal | sio_encode_page(page, sizeof page, 0, entries_count, entries_count, entries,
                                     entries_count * (size_t)ENTRY, &page_len);
}

/* Frames of pairs that are all as prepare_pair made them, but for a torn payload in slot B of the last one. The operators take
 * turns. */
static void prepare_frames(void) {
    for (size_t i = 0; i < pairs; i++) {
        sio_frame_slot(a, size, V0, V1, 0, 0, 0, log2_slot, 2, 1, (uint8_t(*)[PART])frames[i]);
        sio_frame_slot(b, size, V0, V1, 0, size, 1, log2_slot, 2, 1, (uint8_t(*)[PART])(frames[i] + PART));
        frames[i][SIO_FRAME_OPERATOR] = (uint8_t)(i % (SIO_MOST_OPERATOR + 1));
    }
    frames[pairs - 1][PART] = 11;
}

static uint32_t prepare(uint8_t slot, uint8_t table, size_t rows_of_frames) {
    log2_slot = slot;
    log2_table = table;
    size = (size_t)1 << slot;
    pairs = rows_of_frames;
    uint32_t refusal = prepare_pair() | prepare_page();
    prepare_frames();
    return refusal | sio_volume_encode(record, sizeof record, 12, table, 0, 1, 8192, 3, 0, 1, entries_count, 0, 0, &count);
}

/* Makes a call on a stack filled with one byte and gives the bytes it took. */
static size_t taken(void (*call)(void), uint8_t filling) {
    size_t lowest = 0;
    memset(stack, filling, sizeof stack);
    position = 0;
    getcontext(&callee);
    callee.uc_stack.ss_sp = stack;
    callee.uc_stack.ss_size = sizeof stack;
    callee.uc_link = &caller;
    makecontext(&callee, call, 0);
    swapcontext(&caller, &callee);
    while (stack[lowest] == filling) {
        lowest++;
    }
    return frame - (uintptr_t)(stack + lowest);
}

static size_t measure(const struct row *row) {
    taken(row->call, 0);
    size_t one = taken(row->call, 0xa5);
    size_t two = taken(row->call, 0x5a);
    return one > two ? one : two;
}

int main(void) {
    enum { ROWS = sizeof rows / sizeof rows[0] };
    static size_t bytes[ROWS][2];
    static const uint8_t slot[2] = {16, 9}, table[2] = {16, 12};
    static const size_t frame_rows[2] = {SIO_MOST_PAIRS, 1};
    for (size_t input = 0; input < 2; input++) {
        if (prepare(slot[input], table[input], frame_rows[input]) != 0) {
            printf("the inputs were refused\n");
            return 1;
        }
        for (size_t i = 0; i < ROWS; i++) {
            bytes[i][input] = measure(&rows[i]);
            if (rows[i].expected != ANY && result != rows[i].expected) {
                printf("%s returned %llu\n", rows[i].name, (unsigned long long)result);
                return 1;
            }
        }
    }
    for (size_t i = 0; i < ROWS; i++) {
        printf("%s %zu %zu\n", rows[i].name, bytes[i][0], bytes[i][1]);
    }
    return 0;
}
