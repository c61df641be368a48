/* header.c: links every function that store_io.h declares; the header must stand being included twice. */
#include "store_io.h"
#include "store_io.h"

typedef void (*function)(void);

static const function functions[] = {
    (function)&sio_version,

    (function)&sio_crc32c,
    (function)&sio_crc32c_append,
    (function)&sio_crc32c_gap,

    (function)&sio_remaining,
    (function)&sio_read_u8,
    (function)&sio_read_u16,
    (function)&sio_read_u32,
    (function)&sio_read_u64,
    (function)&sio_read_bytes,
    (function)&sio_read_array16,
    (function)&sio_read_array24,
    (function)&sio_write_u8,
    (function)&sio_write_u16,
    (function)&sio_write_u32,
    (function)&sio_write_u64,
    (function)&sio_write_bytes,
    (function)&sio_write_zeros,

    (function)&sio_encode,
    (function)&sio_validate,
    (function)&sio_header_facts,
    (function)&sio_frame_slot,

    (function)&sio_decide,
    (function)&sio_winner_payload,

    (function)&sio_judge,

    (function)&sio_next_number,
    (function)&sio_heal_number,
    (function)&sio_plan_write,
    (function)&sio_plan_heal,
    (function)&sio_next_write,

    (function)&sio_region_name,
    (function)&sio_region_name_padded,

    (function)&sio_volume_decode,
    (function)&sio_volume_encode,
    (function)&sio_volume_base_decode,
    (function)&sio_volume_base_encode,
    (function)&sio_entries_per_page,
    (function)&sio_table_end,
    (function)&sio_check_file_len,

    (function)&sio_decode_page,
    (function)&sio_encode_page,

    (function)&sio_read_entry,
    (function)&sio_write_entry,
    (function)&sio_check_entry,
    (function)&sio_entry_to_raw,
    (function)&sio_entry_name,
    (function)&sio_entry_name_and_kind,
    (function)&sio_reserved_span,
};

int main(void) {
    for (size_t i = 0; i < sizeof functions / sizeof functions[0]; i++) {
        if (functions[i] == NULL) {
            return 1;
        }
    }
    return 0;
}
