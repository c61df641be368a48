/* An example host: a store in an image file, made, judged, healed and cut through the library alone.
 *
 *     host make IMAGE               makes a sound store
 *     host judge IMAGE              reads every slot, judges the store, prints verdicts and records
 *     host heal IMAGE COPY [K]      writes a copy in which the slot that the judge names for healing is written anew; where K is
 *                                   given, a power cut ended that write after K bytes
 *     host close IMAGE COPY         writes a copy with the clean mark in its volume record
 *     host cut IMAGE COPY PAIR K    writes a copy in which a power cut ended a write to a pair after K bytes
 *
 * The exit status is 0 where all was done, and of judge where every pair is Confirmed and every record accepted; 1 where
 * something is refused, damaged or not there to be healed, or where the library has another version of the interface than the
 * header; 2 for a bad command line; 3 for a file that could not be opened, read or written. A refusal of the library is printed
 * with its number. No file that exists is written to: IMAGE of make and COPY must be new.
 *
 * The image. Its layout is the example's own, in line with docs/FORMAT.md, "The volume record". B is the block size, T
 * the size of a table slot, P the number of table pages, and p counts them from 0:
 *
 *     offset          size    what
 *     0               B       pair 0, slot A: the volume record
 *     B               B       pair 0, slot B
 *     2B + 2pT        T       pair p + 1, slot A: table page p
 *     2B + 2pT + T    T       pair p + 1, slot B
 *     2B + 2PT                regions, to the end of the file; the example leaves them zero
 *
 * B is 4096, so that the volume record is found before anything is known; T and P stand in it. All slots are of format 2 and
 * numbered. The volume id is the 16 letters "store-io example", the volume record is object 0, page p is object 2^61 + p.
 *
 * The operators. An image has no place for them, so they are a rule of the example: the volume record is operator 0's, as in
 * every store, and page p is operator p % 2's. So both occur in a store of two pages: operator 0 has the volume record and page
 * 0, which are numbered together, and operator 1 has page 1, which is numbered by itself.
 *
 * The host asks for no memory of its own. Its buffers are static: two slots of 64 KiB as read, a slot and a record to be
 * written, and a frame and a verdict for each of the pairs that the judge takes at most. A store of more pages is turned away. */
#include <errno.h>
#include <inttypes.h>
#include <stdio.h>
#include <stdlib.h>
#include <string.h>
#include "store_io.h"

/* The index of a slot, and the exit status. */
enum { A = SIO_INDEX_A, B = SIO_INDEX_B };
enum { DONE, FAULT, USAGE, IO };

#define LOG2_BLOCK 12
#define BLOCK (UINT64_C(1) << LOG2_BLOCK)
#define MAX_SLOT 65536
#define MAX_PAGES (SIO_MOST_PAIRS - 1)

#define NUMBERED 1
#define VOLUME0 UINT64_C(0x6f692d65726f7473) /* "store-io" */
#define VOLUME1 UINT64_C(0x656c706d61786520) /* " example" */
#define PAGE_OBJECT (UINT64_C(1) << 61)

/* Where a pair lies, and as what it is read. */
struct place {
    uint64_t object;
    uint64_t offset[2];
    uint8_t log2;
};

/* A store: its file, what its volume record says, and what the judge says. */
struct store {
    FILE *file;
    uint64_t file_len;
    uint64_t record[SIO_VOLUME_VALUES];
    uint64_t table_end;
    size_t pairs;
    uint64_t judgement[SIO_JUDGEMENT_VALUES];
};

/* The current record of a pair: the winner (0 none, 1 A, 2 B), the values of both slots, and the payload, a part of the
 * winner's slot. */
struct current {
    uint32_t winner;
    uint64_t values[2][SIO_INFO_VALUES];
    uint8_t report[SIO_REPORT_VALUES];
    const uint8_t *payload;
    size_t len;
};

static uint8_t slots[2][MAX_SLOT];
static uint8_t fresh[MAX_SLOT];
static uint8_t payload[MAX_SLOT];
static uint8_t frames[SIO_MOST_PAIRS][SIO_FRAME_LEN];
static uint8_t verdicts[SIO_MOST_PAIRS][SIO_VERDICT_LEN];

static const char *const status_names[] = {
    "ReadError", "BadLength", "Blank",       "BadMagic",  "BadHeaderCrc",  "UnsupportedVersion", "Incompatible",
    "Malformed", "Foreign",   "WrongObject", "Misplaced", "BadPayloadCrc", "Valid"};
static const char *const standing_names[] = {"Confirmed", "Unconfirmed", "Lost", "Refused", "Empty", "Fork"};
static const char *const verdict_names[] = {"Winner", "Nothing", "OlderDamaged", "InFlight", "Damage"};
static const char *const slot_names[] = {"none", "A", "B"};
static const char *const kind_names[] = {"none", "append", "page", "slot"};

static int refused(const char *what, uint32_t number) {
    printf("%s: refused with %" PRIu32 "\n", what, number);
    return FAULT;
}

static int fault(const char *what) {
    printf("%s\n", what);
    return FAULT;
}

static int usage(void) {
    fprintf(stderr, "usage: host make IMAGE | judge IMAGE | heal IMAGE COPY [K] | close IMAGE COPY | cut IMAGE COPY PAIR K\n");
    return USAGE;
}

static int io_fault(const char *path) {
    fprintf(stderr, "host: %s: %s\n", path, errno != 0 ? strerror(errno) : "ends too early");
    return IO;
}

/* A decimal number of up to nine digits. */
static int parse(const char *text, size_t *value) {
    size_t len = strspn(text, "0123456789");
    if (len == 0 || len > 9 || text[len] != '\0') {
        return USAGE;
    }
    *value = (size_t)strtoul(text, NULL, 10);
    return DONE;
}

/* ---- Reading and judging ---- */

static struct place place_of(const struct store *store, size_t pair) {
    if (pair == 0) {
        return (struct place){0, {0, BLOCK}, LOG2_BLOCK};
    }
    uint8_t log2 = (uint8_t)store->record[SIO_VOLUME_LOG2_TABLE_SLOT_SIZE];
    uint64_t slot = UINT64_C(1) << log2;
    uint64_t a = store->record[SIO_VOLUME_TABLE_OFFSET] + (pair - 1) * 2 * slot;
    return (struct place){PAGE_OBJECT + (pair - 1), {a, a + slot}, log2};
}

/* The operator of a pair: the rule of the example. */
static uint8_t operator_of(size_t pair) {
    return pair == 0 ? 0 : (uint8_t)((pair - 1) % 2);
}

static size_t size_of(struct place place) {
    return (size_t)1 << place.log2;
}

/* Reads a slot and gives its length, 0 where it could not be read whole. */
static size_t read_slot(FILE *file, struct place place, uint32_t index) {
    size_t size = size_of(place);
    if (fseek(file, (long)place.offset[index], SEEK_SET) != 0 || fread(slots[index], 1, size, file) != size) {
        return 0;
    }
    return size;
}

/* Reads a pair's current record. A slot that could not be read is handed over as no bytes: it is BadLength and no winner. */
static void read_current(const struct store *store, size_t pair, struct current *current) {
    struct place place = place_of(store, pair);
    size_t a_len = read_slot(store->file, place, A);
    size_t b_len = read_slot(store->file, place, B);
    size_t start;
    current->winner = sio_winner_payload(slots[A], a_len, slots[B], b_len, VOLUME0, VOLUME1, place.object, place.offset[A],
                                         place.offset[B], place.log2, SIO_FORMAT_2, NUMBERED, &current->values[A],
                                         &current->values[B], &current->report, &start, &current->len);
    current->payload = slots[current->winner == SIO_SLOT_B ? B : A] + start;
}

static const uint64_t *winner_values(const struct current *current) {
    return current->values[current->winner - SIO_SLOT_A];
}

/* Holds the volume record to the file and to this example's limits. */
static int check_record(struct store *store) {
    uint8_t log2_block = (uint8_t)store->record[SIO_VOLUME_LOG2_BLOCK_SIZE];
    uint8_t log2_table = (uint8_t)store->record[SIO_VOLUME_LOG2_TABLE_SLOT_SIZE];
    uint32_t pages = (uint32_t)store->record[SIO_VOLUME_TABLE_PAGES];
    uint32_t refusal = sio_check_file_len(log2_block, log2_table, pages, store->file_len);
    if (refusal == 0) {
        refusal = sio_table_end(log2_block, log2_table, pages, &store->table_end);
    }
    if (refusal != 0) {
        return refused("table", refusal);
    }
    if (log2_block != LOG2_BLOCK) {
        return fault("the volume record has another block size than the image");
    }
    if (pages > MAX_PAGES) {
        return fault("more pages than are judged");
    }
    store->pairs = (size_t)pages + 1;
    return DONE;
}

/* Finds the volume record before there is a judgement. sio_winner_payload and the judge name the same winner, of the Valid
 * slots the one of the higher generation. This record gives the table's size and the clean mark that the judge is handed. */
static int read_volume(struct store *store) {
    struct current current;
    read_current(store, 0, &current);
    if (current.winner == SIO_SLOT_NONE) {
        printf("pair 0: A %s, B %s: %s, no volume record\n", status_names[current.report[SIO_REPORT_A_STATUS]],
               status_names[current.report[SIO_REPORT_B_STATUS]], standing_names[current.report[SIO_REPORT_STANDING]]);
        return FAULT;
    }
    uint32_t refusal = sio_volume_decode(current.payload, current.len, &store->record);
    return refusal == 0 ? check_record(store) : refused("volume record", refusal);
}

/* A slot's part of its pair's frame. */
static uint8_t *part_of(size_t pair, uint32_t index) {
    return frames[pair] + index * SIO_PART_LEN;
}

/* Fills a slot's part of its frame. The part of a slot that could not be read, ReadError, is zeros. */
static void frame_slot(const struct store *store, size_t pair, uint32_t index) {
    struct place place = place_of(store, pair);
    size_t len = read_slot(store->file, place, index);
    uint8_t *part = part_of(pair, index);
    if (len == 0) {
        memset(part, 0, SIO_PART_LEN);
    } else {
        sio_frame_slot(slots[index], len, VOLUME0, VOLUME1, place.object, place.offset[index], index, place.log2,
                       SIO_FORMAT_2, NUMBERED, (uint8_t(*)[SIO_PART_LEN])part);
    }
}

/* Fills a pair's frame. The operator is the host's to write. */
static void fill_frame(const struct store *store, size_t pair) {
    frame_slot(store, pair, A);
    frame_slot(store, pair, B);
    frames[pair][SIO_FRAME_OPERATOR] = operator_of(pair);
}

static uint8_t clean_mark(const struct store *store) {
    return (uint8_t)store->record[SIO_VOLUME_CLEAN_CLOSE];
}

static int judge_store(struct store *store) {
    for (size_t pair = 0; pair < store->pairs; pair++) {
        fill_frame(store, pair);
    }
    uint32_t refusal = sio_judge(frames[0], store->pairs * sizeof frames[0], clean_mark(store), verdicts[0],
                                 store->pairs * sizeof verdicts[0], &store->judgement);
    return refusal == 0 ? DONE : refused("judge", refusal);
}

/* Reads a store and judges it. */
static int open_store(const char *path, struct store *store) {
    store->file = fopen(path, "rb");
    if (store->file == NULL) {
        return io_fault(path);
    }
    long end = fseek(store->file, 0, SEEK_END) == 0 ? ftell(store->file) : -1;
    if (end < 0) {
        return io_fault(path);
    }
    store->file_len = (uint64_t)end;
    int status = read_volume(store);
    return status == DONE ? judge_store(store) : status;
}

/* ---- Printing ---- */

/* An entry that passes its checks; or the number of its refusal, its name if it has one, and the span it keeps reserved. */
static int print_entry(const struct store *store, const uint8_t *entry, uint64_t number) {
    uint64_t found[SIO_ENTRY_VALUES];
    uint64_t span[SIO_SPAN_VALUES];
    uint8_t name[SIO_NAME_LEN];
    uint8_t len;
    uint32_t refusal = sio_check_entry(entry, SIO_ENTRY_LEN, LOG2_BLOCK, store->table_end, store->file_len, number, &found,
                                       &name, &len);
    if (refusal == 0) {
        printf("    %" PRIu64 " %.*s: %s, %" PRIu64 " of %" PRIu64 " bytes, span %" PRIu64 " to %" PRIu64 "\n",
               found[SIO_ENTRY_SEQ], len, (const char *)name, kind_names[found[SIO_ENTRY_KIND]], found[SIO_ENTRY_DATA_SIZE],
               found[SIO_ENTRY_CAPACITY], found[SIO_ENTRY_SPAN_START], found[SIO_ENTRY_SPAN_END]);
        return DONE;
    }
    sio_entry_name(entry, SIO_ENTRY_LEN, &name, &len);
    sio_reserved_span(entry, SIO_ENTRY_LEN, LOG2_BLOCK, store->table_end, store->file_len, &span);
    printf("    %.*s: refused with %" PRIu32 ", reserves %" PRIu64 " to %" PRIu64 "\n", len, (const char *)name, refusal,
           span[SIO_SPAN_START], span[SIO_SPAN_END]);
    return FAULT;
}

static int print_page(const struct store *store, size_t pair, const struct current *current) {
    uint64_t number = winner_values(current)[SIO_INFO_META_SEQ];
    uint64_t page[SIO_PAGE_VALUES];
    uint32_t refusal = sio_decode_page(current->payload, current->len, (uint32_t)(pair - 1),
                                       (uint16_t)store->record[SIO_VOLUME_ENTRIES_PER_PAGE], &page);
    if (refusal != 0) {
        return refused("    page", refusal);
    }
    printf("    generation %" PRIu64 ", number %" PRIu64 ": page %" PRIu64 ", next seq %" PRIu64 ", entries %" PRIu64 "\n",
           winner_values(current)[SIO_INFO_GENERATION], number, page[SIO_PAGE_INDEX], page[SIO_PAGE_NEXT_SEQ],
           page[SIO_PAGE_COUNT]);
    int status = DONE;
    const uint8_t *entries = current->payload + page[SIO_PAGE_ENTRIES_START];
    for (size_t i = 0; i < page[SIO_PAGE_COUNT]; i++) {
        status |= print_entry(store, entries + i * SIO_ENTRY_LEN, number);
    }
    return status;
}

static int print_volume(const struct current *current) {
    uint64_t record[SIO_VOLUME_VALUES];
    uint32_t refusal = sio_volume_decode(current->payload, current->len, &record);
    if (refusal != 0) {
        return refused("    volume record", refusal);
    }
    printf("    generation %" PRIu64 ", number %" PRIu64 ": volume record, owner %" PRIu64 ", created %" PRIu64
           ", clean mark %" PRIu64 "\n",
           winner_values(current)[SIO_INFO_GENERATION], winner_values(current)[SIO_INFO_META_SEQ],
           record[SIO_VOLUME_OWNER_GENERATION], record[SIO_VOLUME_CREATED_UNIX_S], record[SIO_VOLUME_CLEAN_CLOSE]);
    return DONE;
}

/* Reads a pair's record from the slot that the verdict names. */
static int read_judged(const struct store *store, size_t pair, struct current *current) {
    read_current(store, pair, current);
    if (current->winner != verdicts[pair][SIO_VERDICT_WINNER]) {
        return fault("    the file has changed since it was judged");
    }
    return current->winner == SIO_SLOT_NONE ? fault("    no record") : DONE;
}

/* What a sound pair has none of: two Valid slots whose generations or checksums do not follow each other. */
static int print_chain(const struct current *current) {
    if (current->report[SIO_REPORT_GENERATION_GAP] != 0) {
        return fault("    the generations are not consecutive");
    }
    return current->report[SIO_REPORT_CHAIN_BREAK] != 0
               ? fault("    the winner records another checksum than the other slot's")
               : DONE;
}

/* A pair: status and verdict of its slots, its standing, and its record as it reads back. */
static int print_pair(const struct store *store, size_t pair) {
    const uint8_t *verdict = verdicts[pair];
    struct current current;
    printf("pair %zu: A %s %s, B %s %s: %s, winner %s\n", pair, status_names[part_of(pair, A)[SIO_PART_STATUS]],
           verdict_names[verdict[SIO_VERDICT_A]], status_names[part_of(pair, B)[SIO_PART_STATUS]],
           verdict_names[verdict[SIO_VERDICT_B]], standing_names[verdict[SIO_VERDICT_STANDING]],
           slot_names[verdict[SIO_VERDICT_WINNER]]);
    int status = read_judged(store, pair, &current);
    if (status == DONE) {
        status = pair == 0 ? print_volume(&current) : print_page(store, pair, &current);
        status |= print_chain(&current);
    }
    return verdict[SIO_VERDICT_STANDING] == SIO_STANDING_CONFIRMED ? status : FAULT;
}

static int print_store(struct store *store, char **words) {
    const uint64_t *judgement = store->judgement;
    int status = DONE;
    (void)words;
    printf("file %" PRIu64 ", block %" PRIu64 ", table slot %" PRIu64 ", pages %" PRIu64 ", table %" PRIu64 " to %" PRIu64
           "\n",
           store->file_len, UINT64_C(1) << store->record[SIO_VOLUME_LOG2_BLOCK_SIZE],
           UINT64_C(1) << store->record[SIO_VOLUME_LOG2_TABLE_SLOT_SIZE], store->record[SIO_VOLUME_TABLE_PAGES],
           store->record[SIO_VOLUME_TABLE_OFFSET], store->table_end);
    for (size_t pair = 0; pair < store->pairs; pair++) {
        status |= print_pair(store, pair);
    }
    printf("heal slot %s of pair %" PRIu64 ", writable %" PRIu64 ", clean %" PRIu64 ", refused %" PRIu64
           ", owners differ %" PRIu64 "\n",
           slot_names[judgement[SIO_JUDGEMENT_HEAL_SLOT]], judgement[SIO_JUDGEMENT_HEAL_PAIR],
           judgement[SIO_JUDGEMENT_WRITABLE], judgement[SIO_JUDGEMENT_CLEAN], judgement[SIO_JUDGEMENT_REFUSED],
           judgement[SIO_JUDGEMENT_OWNERS_DIFFER]);
    return status;
}

/* ---- Writing ---- */

/* Asks for the plan of a pair's next write. */
static int plan_next(const struct store *store, size_t pair, uint64_t (*plan)[SIO_PLAN_VALUES]) {
    uint32_t refusal = sio_plan_write(frames[0], store->pairs * sizeof frames[0], pair, plan);
    if (refusal != 0) {
        return refused("plan", refusal);
    }
    return (*plan)[SIO_PLAN_SLOT] == SIO_SLOT_NONE ? fault("the pair may not be written") : DONE;
}

/* Encodes a planned write of a record to a pair, with the owner of the store and the winner's flags. */
static int encode_planned(const struct store *store, size_t pair, const struct current *current, const uint64_t *plan,
                          const uint8_t *record, size_t len) {
    struct place place = place_of(store, pair);
    const uint64_t *winner = winner_values(current);
    uint32_t index = (uint32_t)plan[SIO_PLAN_SLOT] - SIO_SLOT_A;
    uint32_t crc;
    if (winner[SIO_INFO_RO_COMPAT_FLAGS] != 0) {
        return fault("the winner has read-only flags: its pair is not written");
    }
    uint32_t refusal = sio_encode(fresh, size_of(place), VOLUME0, VOLUME1, place.object, plan[SIO_PLAN_GENERATION],
                                  store->record[SIO_VOLUME_OWNER_GENERATION], place.offset[index], index, place.log2,
                                  (uint32_t)plan[SIO_PLAN_PREV_HEADER_CRC32C], SIO_FORMAT_2, plan[SIO_PLAN_META_SEQ],
                                  (uint32_t)winner[SIO_INFO_COMPAT_FLAGS], record, len, &crc);
    if (refusal != 0) {
        return refused("slot", refusal);
    }
    printf("pair %zu, slot %s: generation %" PRIu64 ", number %" PRIu64 "\n", pair, slot_names[plan[SIO_PLAN_SLOT]],
           plan[SIO_PLAN_GENERATION], plan[SIO_PLAN_META_SEQ]);
    return DONE;
}

/* Writes bytes at a place of a file. */
static int write_at(FILE *file, uint64_t offset, const uint8_t *bytes, size_t len) {
    return fseek(file, (long)offset, SEEK_SET) == 0 && fwrite(bytes, 1, len, file) == len ? DONE : IO;
}

static int copy_image(const struct store *store, FILE *copy) {
    size_t len = 0;
    for (uint64_t at = 0; at < store->file_len; at += len) {
        uint64_t left = store->file_len - at;
        len = left < MAX_SLOT ? (size_t)left : MAX_SLOT;
        if (fseek(store->file, (long)at, SEEK_SET) != 0 || fread(slots[A], 1, len, store->file) != len ||
            write_at(copy, at, slots[A], len) != DONE) {
            return IO;
        }
    }
    return DONE;
}

/* Closes a new file, and removes it where it was not written whole. A host of a device would wait here until the bytes are
 * durable, and only then write again. */
static int finish(FILE *file, const char *path, int status) {
    if (fclose(file) == 0 && status == DONE) {
        return DONE;
    }
    if (status != FAULT) {
        status = io_fault(path);
    }
    remove(path);
    return status;
}

/* Writes a copy of the image with the first k bytes of a planned write of a record to a pair. */
static int write_copy(const struct store *store, const char *path, size_t pair, const struct current *current,
                      const uint64_t *plan, const uint8_t *record, size_t len, size_t k) {
    int status = encode_planned(store, pair, current, plan, record, len);
    if (status != DONE) {
        return status;
    }
    errno = 0;
    FILE *copy = fopen(path, "wbx");
    if (copy == NULL) {
        return io_fault(path);
    }
    status = copy_image(store, copy);
    if (status == DONE) {
        status = write_at(copy, place_of(store, pair).offset[plan[SIO_PLAN_SLOT] - SIO_SLOT_A], fresh, k);
    }
    return finish(copy, path, status);
}

/* Writes the winner's record anew to the slot named for healing, cut after k bytes or, without k, to the end. What is healed is
 * the plan's alone. The judge names a slot only in a store that may be written. */
static int heal_store(struct store *store, char **words) {
    uint64_t heal[SIO_HEAL_VALUES];
    struct current current;
    size_t k = 0;
    uint32_t refusal = sio_plan_heal(frames[0], store->pairs * sizeof frames[0], clean_mark(store), &heal);
    if (refusal != 0) {
        return refused("plan", refusal);
    }
    if (heal[SIO_HEAL_SLOT] == SIO_SLOT_NONE) {
        return fault("nothing to heal");
    }
    size_t pair = (size_t)heal[SIO_HEAL_PAIR];
    size_t size = size_of(place_of(store, pair));
    if (words[1] != NULL && parse(words[1], &k) != DONE) {
        return usage();
    }
    if (k > size) {
        return fault("more bytes than the slot has");
    }
    int status = read_judged(store, pair, &current);
    if (status != DONE) {
        return status;
    }
    /* What follows the pair is a plan. */
    return write_copy(store, words[0], pair, &current, heal + SIO_HEAL_SLOT, current.payload, current.len,
                      words[1] == NULL ? size : k);
}

static uint32_t encode_volume(const uint64_t *record, size_t *len) {
    return sio_volume_encode(
        payload, sizeof payload, (uint8_t)record[SIO_VOLUME_LOG2_BLOCK_SIZE],
        (uint8_t)record[SIO_VOLUME_LOG2_TABLE_SLOT_SIZE], (uint16_t)record[SIO_VOLUME_DEVICE_INDEX],
        record[SIO_VOLUME_OWNER_GENERATION], record[SIO_VOLUME_TABLE_OFFSET], record[SIO_VOLUME_CREATED_UNIX_S],
        record[SIO_VOLUME_FEATURES], (uint32_t)record[SIO_VOLUME_TABLE_PAGES], (uint16_t)record[SIO_VOLUME_ENTRIES_PER_PAGE],
        (uint32_t)record[SIO_VOLUME_CLEAN_CLOSE], (uint32_t)record[SIO_VOLUME_FLAGS], len);
}

/* The next record of a page: the same entries, and a sequence number used up if one is left. */
static uint32_t next_page(const struct store *store, size_t pair, const struct current *current, size_t *len) {
    uint64_t page[SIO_PAGE_VALUES];
    uint32_t refusal = sio_decode_page(current->payload, current->len, (uint32_t)(pair - 1),
                                       (uint16_t)store->record[SIO_VOLUME_ENTRIES_PER_PAGE], &page);
    if (refusal != 0) {
        return refusal;
    }
    uint64_t next_seq = page[SIO_PAGE_NEXT_SEQ];
    next_seq += next_seq < UINT32_MAX;
    return sio_encode_page(payload, sizeof payload, (uint32_t)page[SIO_PAGE_INDEX], (uint32_t)next_seq,
                           (uint16_t)page[SIO_PAGE_COUNT], current->payload + page[SIO_PAGE_ENTRIES_START],
                           (size_t)page[SIO_PAGE_ENTRIES_LEN], len);
}

/* A store is written to once nothing is left to heal, and its pages only without the clean mark. */
static int may_write(const struct store *store, size_t pair) {
    if (store->judgement[SIO_JUDGEMENT_WRITABLE] == 0) {
        return fault("the store may not be written");
    }
    if (store->judgement[SIO_JUDGEMENT_HEAL_SLOT] != SIO_SLOT_NONE) {
        return fault("a slot is to be healed first");
    }
    return pair != 0 && clean_mark(store) != 0 ? fault("the clean mark is set: pair 0 is written first") : DONE;
}

/* Writes the next record of a pair, cut after k bytes. A volume record is encoded from what the store says. */
static int write_next(const struct store *store, const char *path, size_t pair, size_t k) {
    struct current current;
    uint64_t plan[SIO_PLAN_VALUES];
    size_t len = 0;
    int status = read_judged(store, pair, &current);
    if (status == DONE) {
        status = plan_next(store, pair, &plan);
    }
    if (status != DONE) {
        return status;
    }
    uint32_t refusal = pair == 0 ? encode_volume(store->record, &len) : next_page(store, pair, &current, &len);
    if (refusal != 0) {
        return refused("record", refusal);
    }
    return write_copy(store, path, pair, &current, plan, payload, len, k);
}

/* Writes the volume record with the clean mark. */
static int close_store(struct store *store, char **words) {
    int status = may_write(store, 0);
    if (status != DONE) {
        return status;
    }
    store->record[SIO_VOLUME_CLEAN_CLOSE] = 1;
    return write_next(store, words[0], 0, (size_t)BLOCK);
}

/* Writes the next record of a pair and cuts it. The next volume record is that of another owner, who has not closed yet. */
static int cut_store(struct store *store, char **words) {
    size_t pair;
    size_t k;
    if (parse(words[1], &pair) != DONE || parse(words[2], &k) != DONE) {
        return usage();
    }
    if (pair >= store->pairs || k > size_of(place_of(store, pair))) {
        return fault("no such pair, or more bytes than its slots have");
    }
    int status = may_write(store, pair);
    if (status != DONE) {
        return status;
    }
    if (pair == 0) {
        store->record[SIO_VOLUME_OWNER_GENERATION]++;
        store->record[SIO_VOLUME_CLEAN_CLOSE] = 0;
    }
    return write_next(store, words[0], pair, k);
}

/* ---- Making a store ---- */

/* The regions of the made store, in blocks after the table: both headers first, then the data. A footprint is the number of the
 * write of page 0 below that first has the region. */
static const struct region {
    const char *name;
    uint8_t kind;
    uint16_t extents;
    uint64_t start, data, end;
    uint64_t data_size;
    uint64_t footprint;
} regions[] = {{"journal", SIO_KIND_APPEND, 1, 0, 2, 4, 512, 3}, {"settings", SIO_KIND_SLOT, 0, 4, 6, 6, 0, 4}};

#define REGION_BLOCKS 6

/* The writes of the made store, in this order, those of each operator numbered from 1: the pair, its generation, and the
 * entries of a page. The first writes are those of the pages and then that of pair 0: without its record no store is there. */
static const struct write {
    size_t pair;
    uint64_t generation;
    uint16_t entries;
} writes[] = {{1, 1, 0}, {2, 1, 0}, {0, 1, 0}, {1, 2, 1}, {1, 3, 2}, {0, 2, 0}};

static uint32_t encode_entry(uint8_t *entry, uint32_t seq, const struct region *region, uint64_t table_end) {
    uint64_t start = table_end + region->start * BLOCK;
    uint8_t name[SIO_NAME_LEN];
    uint8_t name_len;
    size_t written;
    uint32_t refusal = sio_region_name((const uint8_t *)region->name, strlen(region->name), &name, &name_len);
    if (refusal != 0) {
        return refusal;
    }
    return sio_write_entry(entry, SIO_ENTRY_LEN, seq, region->kind, SIO_STATE_READY, 0, 0, name, 0, region->extents, start,
                           start + BLOCK, region->data_size, (region->end - region->data) * BLOCK, start,
                           table_end + region->end * BLOCK, region->footprint, &written);
}

/* A page with the first of the regions as its entries. */
static uint32_t make_page(const struct store *store, const struct write *write, size_t *len) {
    uint8_t entries[sizeof regions / sizeof regions[0]][SIO_ENTRY_LEN];
    uint32_t refusal = 0;
    for (uint32_t i = 0; i < write->entries && refusal == 0; i++) {
        refusal = encode_entry(entries[i], i + 1, &regions[i], store->table_end);
    }
    if (refusal != 0) {
        return refusal;
    }
    return sio_encode_page(payload, sizeof payload, (uint32_t)(write->pair - 1), write->entries + 1u, write->entries,
                           entries[0], write->entries * (size_t)SIO_ENTRY_LEN, len);
}

/* Encodes and writes one generation of a pair: odd ones to slot A, even ones to B. *crc is the checksum of its last one. */
static int make_slot(struct store *store, const struct write *write, uint64_t number, uint32_t *crc) {
    struct place place = place_of(store, write->pair);
    uint32_t index = write->generation % 2 == 1 ? A : B;
    size_t len = 0;
    if (write->pair == 0) {
        store->record[SIO_VOLUME_OWNER_GENERATION] = write->generation;
    }
    uint32_t refusal = write->pair == 0 ? encode_volume(store->record, &len) : make_page(store, write, &len);
    if (refusal == 0) {
        refusal = sio_encode(fresh, size_of(place), VOLUME0, VOLUME1, place.object, write->generation,
                             store->record[SIO_VOLUME_OWNER_GENERATION], place.offset[index], index, place.log2, *crc,
                             SIO_FORMAT_2, number, 0, payload, len, crc);
    }
    if (refusal != 0) {
        return refused("make", refusal);
    }
    return write_at(store->file, place.offset[index], fresh, size_of(place));
}

/* Makes the file: zeros to its end, then the writes. */
static int make_image(struct store *store) {
    uint32_t crcs[3] = {0, 0, 0};
    uint64_t numbers[SIO_MOST_OPERATOR + 1] = {0};
    uint32_t refusal = sio_table_end(LOG2_BLOCK, (uint8_t)store->record[SIO_VOLUME_LOG2_TABLE_SLOT_SIZE],
                                     (uint32_t)store->record[SIO_VOLUME_TABLE_PAGES], &store->table_end);
    if (refusal != 0) {
        return refused("make", refusal);
    }
    uint8_t zero = 0;
    int status = write_at(store->file, store->table_end + REGION_BLOCKS * BLOCK - 1, &zero, 1);
    for (size_t i = 0; i < sizeof writes / sizeof writes[0] && status == DONE; i++) {
        size_t pair = writes[i].pair;
        status = make_slot(store, &writes[i], ++numbers[operator_of(pair)], &crcs[pair]);
    }
    return status;
}

/* The owner of the first volume record writes the pages before it. */
static int make_store(const char *path) {
    struct store store = {.record = {[SIO_VOLUME_LOG2_BLOCK_SIZE] = LOG2_BLOCK,
                                     [SIO_VOLUME_LOG2_TABLE_SLOT_SIZE] = LOG2_BLOCK + 1,
                                     [SIO_VOLUME_OWNER_GENERATION] = 1,
                                     [SIO_VOLUME_TABLE_OFFSET] = 2 * BLOCK,
                                     [SIO_VOLUME_CREATED_UNIX_S] = 1700000000,
                                     [SIO_VOLUME_TABLE_PAGES] = 2}};
    store.record[SIO_VOLUME_ENTRIES_PER_PAGE] = sio_entries_per_page(LOG2_BLOCK + 1);
    store.file = fopen(path, "wbx");
    if (store.file == NULL) {
        return io_fault(path);
    }
    return finish(store.file, path, make_image(&store));
}

/* ---- The command line ---- */

/* The commands on a store that is there, with the fewest and the most words that they take after IMAGE. */
static const struct command {
    const char *name;
    int least, most;
    int (*run)(struct store *store, char **words);
} commands[] = {{"judge", 0, 0, print_store}, {"heal", 1, 2, heal_store}, {"close", 1, 1, close_store}, {"cut", 3, 3, cut_store}};

static int run(const struct command *command, char **argv) {
    struct store store = {0};
    int status = open_store(argv[2], &store);
    if (status == DONE) {
        status = command->run(&store, argv + 3);
    }
    if (store.file != NULL) {
        fclose(store.file);
    }
    return status;
}

int main(int argc, char **argv) {
    if (sio_version() != SIO_VERSION) {
        fprintf(stderr, "host: the library has version %" PRIu32 " of the interface, the header has %d\n", sio_version(),
                SIO_VERSION);
        return FAULT;
    }
    if (argc == 3 && strcmp(argv[1], "make") == 0) {
        return make_store(argv[2]);
    }
    for (size_t i = 0; i < sizeof commands / sizeof commands[0]; i++) {
        if (argc >= 3 + commands[i].least && argc <= 3 + commands[i].most && strcmp(argv[1], commands[i].name) == 0) {
            return run(&commands[i], argv);
        }
    }
    return usage();
}
