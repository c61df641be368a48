// A host of the library, as include/store_io.h describes one, whose medium is bytes of the page. It makes the stores of the lesson out of what
// happened, cuts writes, and hands slots over to be read and judged. Each plan, status, verdict and record is the library's.
'use strict';

// A block is as large as a slot.
const LOG2_SLOT = 12, SLOT = 1 << LOG2_SLOT, SECTOR = 512, BLOCK = BigInt(SLOT);
const VOLUME0 = 0x6f692d65726f7473n, VOLUME1 = 0x206e6f7373656c20n;     // "store-io lesson "
const FILE_LEN = 256n * BLOCK;
const A = 0, B = 1;

// The regions of pair 1's page, each with the block that it begins at; where `fares` lies is what the writes of the lesson change.
const REGIONS = [['stops', 96], ['lines', 104], ['zones', 112], ['passes', 120], ['refused cards', 128], ['fares', null], ['keys', 136],
    ['texts', 144], ['sounds', 152], ['journeys', 160]];
const OTHER_REGIONS = [['lists', 168], ['log', 176]];
const GROWING = ['journeys', 'log'], FARES = REGIONS.findIndex(([name]) => name === 'fares'), REGION_BLOCKS = 8n;

// The byte that goes bad: of the header one of the reserved zeros, of the payload the first letter of a name.
const HARMED = { header: 104, payload: 160 };

// `lib` is docs/lesson/library.js on a module, C the constants of the header. Of the lesson it takes `fares`, a price for each block that a fare
// table begins at, and `layout`, where the fields of a slot's header begin.
function host(lib, C, { fares, layout }) {
    // What was read of slots that do not change, so that a cut of one slot reads that slot alone.
    const readSlots = new WeakMap(), readPairs = new WeakMap();
    const once = (known, key, read) => {
        if (!known.has(key)) known.set(key, read());
        return known.get(key);
    };
    const done = (what, refusal) => { if (refusal !== 0) throw new Error(`${what} refuses with ${refusal}`); };
    const wides = count => new BigUint64Array(count), bytes = count => new Uint8Array(count);

    // How a slot is read and written, in the order of the C functions' arguments: volume, object, offset, index, size, format, numbered.
    const place = (pair, index) => [VOLUME0, VOLUME1, pair === 0 ? 0n : (1n << 61n) + BigInt(pair - 1), BigInt((2 * pair + index) * SLOT),
        index, LOG2_SLOT, C.SIO_FORMAT_2, 1];

    // ---- records

    function volumeRecord(pages, owner, clean) {
        const record = bytes(C.SIO_VOLUME_LEN), tableOffset = 2n * BLOCK, created = 1700000000n, features = 0n, flags = 0;
        done('sio_volume_encode', lib.sio_volume_encode(record, LOG2_SLOT, LOG2_SLOT, 0, BigInt(owner), tableOffset, created, features, pages,
            lib.sio_entries_per_page(LOG2_SLOT), clean ? 1 : 0, flags, wides(1)));
        return record;
    }

    function entry(seq, name, kind, block, data, footprint) {
        const stored = bytes(C.SIO_NAME_LEN), written = bytes(C.SIO_ENTRY_LEN), start = BigInt(block) * BLOCK;
        done('sio_region_name', lib.sio_region_name(new TextEncoder().encode(name), stored, bytes(1)));
        const [headerA, headerB, end, capacity] = [start, start + BLOCK, start + REGION_BLOCKS * BLOCK, (REGION_BLOCKS - 2n) * BLOCK];
        done('sio_write_entry', lib.sio_write_entry(written, seq, kind, C.SIO_STATE_READY, 0, 0, stored, 0, 1, headerA, headerB, data, capacity,
            start, end, footprint, wides(1)));
        return written;
    }

    // A page as the write of this generation and number has it. In pair 1 the fares move with each write; one region grows in each page.
    function pageRecord(pair, cents, generation, number) {
        const regions = pair === 1 ? REGIONS : OTHER_REGIONS, count = regions.length, moved = count + Number(generation);
        const fareBlock = Number(Object.keys(fares).find(block => fares[block] === cents));
        const entries = bytes(C.SIO_ENTRY_LEN * count), record = bytes(C.SIO_PAGE_HEADER_LEN + entries.length);
        regions.forEach(([name, block], i) => entries.set(
            name === 'fares' ? entry(moved, name, C.SIO_KIND_PAGE, fareBlock, BLOCK, number)
                : GROWING.includes(name) ? entry(i, name, C.SIO_KIND_APPEND, block, BigInt(SECTOR) * generation, 1n)
                    : entry(i, name, C.SIO_KIND_PAGE, block, BLOCK, 1n), C.SIO_ENTRY_LEN * i));
        done('sio_encode_page', lib.sio_encode_page(record, pair - 1, moved + 1, count, entries, wides(1)));
        return record;
    }

    // ---- stores: the slots of each pair, null where one cannot be read, their parts of the frames, and the pairs' operators

    function partOf(pair, index, slot) {
        const part = bytes(C.SIO_PART_LEN);
        if (slot) lib.sio_frame_slot(slot, ...place(pair, index), part);
        return part;
    }

    function emptyStore(operators) {
        const slots = operators.map(() => [bytes(SLOT), bytes(SLOT)]);
        return { operators, slots, parts: slots.map((two, pair) => two.map((slot, index) => partOf(pair, index, slot))) };
    }

    // The store with another content of one slot; the other pairs are shared.
    function withSlot(store, pair, index, slot) {
        const put = (table, value) => table.map((two, p) => p === pair ? two.map((each, i) => i === index ? value : each) : two);
        return { ...store, slots: put(store.slots, slot), parts: put(store.parts, partOf(pair, index, slot)) };
    }

    function framesOf(store) {
        const frames = bytes(store.slots.length * C.SIO_FRAME_LEN);
        store.parts.forEach((two, pair) => {
            two.forEach((part, index) => frames.set(part, pair * C.SIO_FRAME_LEN + index * C.SIO_PART_LEN));
            frames[pair * C.SIO_FRAME_LEN + C.SIO_FRAME_OPERATOR] = store.operators[pair];
        });
        return frames;
    }

    // ---- reading

    // The winner of a pair by its slots alone, with its payload. A slot that cannot be read is handed over as no bytes.
    function current(store, pair) {
        const [a, b] = store.slots[pair].map(slot => slot ?? bytes(0)), [volume0, volume1, object, offsetA, , ...rest] = place(pair, A);
        const values = [wides(C.SIO_INFO_VALUES), wides(C.SIO_INFO_VALUES)], start = wides(1), length = wides(1);
        const winner = lib.sio_winner_payload(a, b, volume0, volume1, object, offsetA, place(pair, B)[3], ...rest, ...values,
            bytes(C.SIO_REPORT_VALUES), start, length);
        if (winner === C.SIO_SLOT_NONE) return null;
        const index = winner - C.SIO_SLOT_A, from = Number(start[0]);
        return { index, info: values[index], payload: [a, b][index].slice(from, from + Number(length[0])) };
    }

    function decodeVolume(payload) {
        const found = wides(C.SIO_VOLUME_VALUES), refusal = lib.sio_volume_decode(payload, found);
        if (refusal !== 0) return { refusal };
        const [owner, clean, pages] = [C.SIO_VOLUME_OWNER_GENERATION, C.SIO_VOLUME_CLEAN_CLOSE, C.SIO_VOLUME_TABLE_PAGES].map(at => found[at]);
        return { owner, clean: clean === 1n, pages: Number(pages) };
    }

    // A page's entries, each with its name and the block that its region begins at, or with the refusal of its checks.
    function decodePage(pair, payload, number, pages) {
        const found = wides(C.SIO_PAGE_VALUES), tableEnd = wides(1);
        const refusal = lib.sio_decode_page(payload, pair - 1, lib.sio_entries_per_page(LOG2_SLOT), found);
        if (refusal !== 0) return { refusal };
        done('sio_table_end', lib.sio_table_end(LOG2_SLOT, LOG2_SLOT, pages, tableEnd));
        const [start, count] = [C.SIO_PAGE_ENTRIES_START, C.SIO_PAGE_COUNT].map(at => Number(found[at]));
        return { entries: Array.from({ length: count }, (_, i) => {
            const stored = payload.slice(start + i * C.SIO_ENTRY_LEN, start + (i + 1) * C.SIO_ENTRY_LEN);
            const fields = wides(C.SIO_ENTRY_VALUES), name = bytes(C.SIO_NAME_LEN), length = bytes(1);
            const faulty = lib.sio_check_entry(stored, LOG2_SLOT, tableEnd[0], FILE_LEN, number, fields, name, length);
            if (faulty !== 0) return { refusal: faulty };
            return { name: new TextDecoder().decode(name.subarray(0, length[0])), block: Number(fields[C.SIO_ENTRY_SPAN_START] / BLOCK) };
        }) };
    }

    const decode = (pair, payload, number, pages) => pair === 0 ? decodeVolume(payload) : decodePage(pair, payload, number, pages);

    function readRecord(store, pair) {
        const found = current(store, pair);
        if (!found) return null;
        const { index, info, payload } = found, decoded = decode(pair, payload, info[C.SIO_INFO_META_SEQ], store.slots.length - 1);
        return { index, generation: info[C.SIO_INFO_GENERATION], payload, ...decoded };
    }

    // The record of a pair, read back from the slot that wins, or null.
    const record = (store, pair) => once(readPairs, store.slots[pair], () => readRecord(store, pair));

    // Where a page says that the fare table lies, and the price in it.
    function faresOf(page) {
        const found = page?.entries?.find(each => each.name === 'fares');
        return found && { block: found.block, cents: fares[found.block] };
    }

    // The clean mark that the judge is handed: that of pair 0's record, 0 where there is none.
    const cleanMark = store => record(store, 0)?.clean === true ? 1 : 0;

    function judge(store) {
        const frames = framesOf(store), clean = cleanMark(store);
        const verdicts = bytes(store.slots.length * C.SIO_VERDICT_LEN), judgement = wides(C.SIO_JUDGEMENT_VALUES);
        done('sio_judge', lib.sio_judge(frames, clean, verdicts, judgement));
        return { frames, clean, verdicts, judgement: Array.from(judgement, Number) };
    }

    function readSeen(slot) {
        const wide = at => {
            const value = wides(1);
            done('sio_read_u64', lib.sio_read_u64(slot, BigUint64Array.of(BigInt(at)), value));
            return value[0];
        };
        const link = new Uint32Array(1), fields = wides(C.SIO_RAW_VALUES);
        done('sio_read_u32', lib.sio_read_u32(slot, BigUint64Array.of(BigInt(layout.prev_header_crc32c)), link));
        const at = C.SIO_HEADER_LEN + C.SIO_PAGE_HEADER_LEN + FARES * C.SIO_ENTRY_LEN;
        done('sio_read_entry', lib.sio_read_entry(slot.slice(at, at + C.SIO_ENTRY_LEN), fields, bytes(C.SIO_NAME_LEN)));
        return { generation: wide(layout.generation), number: wide(layout.meta_seq), owner: wide(layout.owner_generation), link: link[0],
            cents: fares[fields[C.SIO_RAW_SPAN_START] / BLOCK] };
    }

    // What a person sees who looks at a slot's bytes and asks no checksum: the header's fields, and the price that the bytes lead to.
    const seen = slot => once(readSlots, slot, () => readSeen(slot));

    // ---- writing

    // A slot encoded by a plan, with the checksum of its header.
    function encode(pair, { index, generation, link, number }, owner, payload) {
        const slot = bytes(SLOT), checksum = new Uint32Array(1), [volume0, volume1, object, offset, , log2, format] = place(pair, index);
        done('sio_encode', lib.sio_encode(slot, volume0, volume1, object, generation, BigInt(owner), offset, index, log2, link, format, number,
            0, payload, checksum));
        return { pair, index, generation, number, link, checksum: checksum[0], bytes: slot };
    }

    // A plan from its numbers, which begin at a place.
    function planOf(values, first) {
        const [slot, generation, link, number] = values.slice(first);
        if (Number(slot) === C.SIO_SLOT_NONE) throw new Error('no write is planned');
        return { index: Number(slot) - C.SIO_SLOT_A, generation, link: Number(link), number };
    }

    function planWrite(store, pair) {
        const plan = wides(C.SIO_PLAN_VALUES);
        done('sio_plan_write', lib.sio_plan_write(framesOf(store), BigInt(pair), plan));
        return planOf(plan, C.SIO_PLAN_SLOT);
    }

    // A tool that asks for no plan writes a generation of its own to a slot of its own.
    function planTool(store, { pair, slot, generation }, writes) {
        const number = wides(1), before = writes.find(write => write.pair === pair && write.generation === BigInt(generation - 1));
        done('sio_next_number', lib.sio_next_number(framesOf(store), store.operators[pair], number));
        return { index: 'AB'.indexOf(slot), generation: BigInt(generation), link: before.checksum, number: number[0] };
    }

    function writeOf(store, event, writes) {
        const { pair, owner, clean, cents } = event, tool = event.slot !== null;
        const plan = tool ? planTool(store, event, writes) : planWrite(store, pair);
        const payload = pair === 0 ? volumeRecord(store.slots.length - 1, owner, clean) : pageRecord(pair, cents, plan.generation, plan.number);
        // No record is written that its decoder or the checks of its entries refuse.
        const decoded = decode(pair, payload, plan.number, store.slots.length - 1);
        for (const { refusal } of [decoded, ...decoded.entries ?? []]) done('the decoder of what is written', refusal ?? 0);
        const again = writes.some(write => write.pair === pair && write.generation === plan.generation) ? ' again' : '';
        return { ...encode(pair, plan, owner, payload), cents, tool, name: `of ${plan.generation}${again}` };
    }

    // The write that heals the slot that is named, as the library plans it: the winner's record, by the owner of the volume record.
    function healOf(store) {
        const plan = wides(C.SIO_HEAL_VALUES);
        done('sio_plan_heal', lib.sio_plan_heal(framesOf(store), cleanMark(store), plan));
        const pair = Number(plan[C.SIO_HEAL_PAIR]), healed = planOf(plan, C.SIO_HEAL_SLOT), page = record(store, pair);
        const write = encode(pair, healed, record(store, 0).owner, page.payload);
        return { ...write, cents: faresOf(page)?.cents, heals: true, name: `of ${healed.generation}, the healing write` };
    }

    // ---- what happened

    // The store with a slot that cannot be read, or with a byte of it damaged.
    function harmed(store, { pair, slot, harm }) {
        const index = 'AB'.indexOf(slot);
        if (harm === 'unread') return withSlot(store, pair, index, null);
        const damaged = store.slots[pair][index].slice();
        damaged[HARMED[harm]] ^= 0x40;
        return withSlot(store, pair, index, damaged);
    }

    // A story up to its last write: the store before it, that write, where it was cut, and what is damaged after it.
    function tell(story) {
        const events = story.events.filter(event => !event.harm), harm = story.events.filter(event => event.harm), writes = [];
        done('sio_check_file_len', lib.sio_check_file_len(LOG2_SLOT, LOG2_SLOT, story.operators.length - 1, FILE_LEN));
        let store = emptyStore(story.operators), before;
        for (const event of events) {
            const write = writeOf(store, event, writes);
            writes.push(write);
            [before, store] = [store, withSlot(store, write.pair, write.index, write.bytes)];
        }
        const last = events.at(-1), cut = last.sector !== null ? { sectors: 1 << last.sector } : { bytes: last.bytes ?? SLOT };
        return { before, write: writes.at(-1), writes, harm, cut, text: last.text };
    }

    // The slot as a cut leaves it: the first bytes new, or the sectors of a set.
    function mixed(old, fresh, cut) {
        const slot = old.slice();
        if (cut.sectors === undefined) slot.set(fresh.subarray(0, cut.bytes));
        else for (let at = 0; at < SLOT; at += SECTOR) if (cut.sectors >> (at / SECTOR) & 1) slot.set(fresh.subarray(at, at + SECTOR), at);
        return slot;
    }

    // The store after the last write was cut and the damage was done.
    function after({ before, write, harm }, cut) {
        const { pair, index } = write, slot = mixed(before.slots[pair][index], write.bytes, cut);
        return harm.reduce(harmed, withSlot(before, pair, index, slot));
    }

    return { tell, after, judge, record, cleanMark, seen, healOf, faresOf };
}
