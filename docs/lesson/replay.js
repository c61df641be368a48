// Replays the five fixed lists of the reference's answers against WebAssembly modules of the library, through docs/lesson/library.js.
// What a case holds, and how its answer is packed, is said in crates/replay, replay_slots, replay_meta, replay_judge and replay_plan
// (src/main.rt). It is the same here, but that what a function is to fill holds bytes of 255 before each call.
//
// The functions that no list asks are asked directly. What they have to answer is by include/store_io.h and docs/FORMAT.md. A function
// of the header that was not called at the end is an error.
//
// Usage: node [--experimental-wasm-memory64] docs/lesson/replay.js MODULE...    ends with status 1 where a module differs
'use strict';

const { deepStrictEqual } = require('node:assert');
const { execFileSync } = require('node:child_process');
const { readFileSync } = require('node:fs');
const path = require('node:path');
const { inspect } = require('node:util');
const { ARRAY_TYPES, instantiate } = require('./library.js');

const root = path.join(__dirname, '..', '..');

// The cases that no C function answers, by list, and why. Of a case jdg, which asks two judges, the one over frames is asked.
const LEFT_OUT = { replay_judge: { row: 'the judge over a row of records is no C function' } };

const bytesOf = array => Buffer.from(array.buffer, array.byteOffset, array.byteLength);

// ---- calls

// Calls the library with arguments by their names, and notes in `called` what it calls. Arrays to be filled that are not given hold bytes
// of 255. The answer comes with all arguments after the call, with those that the function writes, and with whether these are as before.
function asker(library, signatures, called) {
    return (name, given) => {
        const { parameters } = signatures[name];
        const known = new Set(parameters.map(parameter => parameter.name));
        for (const key in given) if (!known.has(key)) throw new Error(`${name} has no parameter ${key}`);
        const toFill = ({ bits, count }) => new ARRAY_TYPES[bits](new Uint8Array(bits / 8 * count).fill(255).buffer);
        const after = Object.fromEntries(parameters.map(parameter => [parameter.name,
            parameter.name in given || parameter.kind !== 'array' ? given[parameter.name] : toFill(parameter)]));
        const those = kind => parameters.filter(parameter => parameter.kind === kind).map(parameter => after[parameter.name]);
        const arrays = those('array'), buffers = those('bytes'), written = [...arrays, ...buffers];
        const before = written.map(array => Buffer.from(bytesOf(array)));
        called.add(name);
        const answer = library[name](...Object.values(after));
        return { answer, after, arrays, buffers, kept: written.every((array, i) => before[i].equals(bytesOf(array))) };
    };
}

// ---- the input of a case

// What is left of it: little-endian numbers and bytes are taken one after the other. `at` says which case it is.
class Input {
    constructor(bytes, at) {
        this.left = bytes;
        this.at = at;
    }

    bytes(count) {
        if (count > this.left.length) throw new Error(`${this.at}: the input is too short`);
        const taken = Uint8Array.from(this.left.subarray(0, count));
        this.left = this.left.subarray(count);
        return taken;
    }

    array(bits, count) {
        return new ARRAY_TYPES[bits](this.bytes(bits / 8 * count).buffer);
    }

    length() {
        return this.array(16, 1)[0];
    }
}

// Fields of an input, each for some parameters of a function:
// all that are numbers or const arrays, in the header's order and widths,
const numbers = (input, parameters) => Object.fromEntries(parameters
    .filter(({ kind }) => ['wide', 'narrow', 'const array'].includes(kind))
    .map(({ name, kind, bits, count }) => [name, kind === 'const array' ? input.array(bits, count) : input.array(bits, 1)[0]]));
// the position of a cursor, and a size in two bytes,
const position = input => ({ position: input.array(64, 1) });
const size = name => input => ({ [name]: BigInt(input.length()) });
// all bytes that are left, and bytes after their length,
const rest = name => input => ({ [name]: input.bytes(input.left.length) });
const measured = name => input => ({ [name]: input.bytes(input.length()) });
// a buffer to be written to: its length, and the byte that it holds everywhere, or 255,
const filled = name => input => ({ [name]: new Uint8Array(input.length()).fill(input.bytes(1)[0]) });
const unwritten = name => input => ({ [name]: new Uint8Array(input.length()).fill(255) });
// a slot: its length, and its first bytes, after which all are 0,
const slot = input => {
    const bytes = new Uint8Array(input.length());
    bytes.set(input.bytes(input.left.length));
    return { slot: bytes };
};
// frames: how often the first one stands, that one, and the others,
const frames = (input, parameters, { SIO_FRAME_LEN: length }) => {
    const times = input.length(), bytes = input.bytes(input.left.length), first = bytes.subarray(0, length);
    return { frames: Uint8Array.from(Buffer.concat([...new Array(times).fill(first), bytes.subarray(length)])) };
};
// and bytes that stand for no parameter.
const unused = count => input => { input.bytes(count); };

// ---- the answer to a case, as it is packed

const packed = (bits, value) => bytesOf(ARRAY_TYPES[bits].of(value));
const number = bits => asked => packed(bits, asked.answer);
const first = asked => packed(8, Math.min(asked.answer, 255));
// Everything that the function writes: arrays, then buffers.
const whole = asked => Buffer.concat([first(asked), ...asked.arrays.map(bytesOf), ...asked.buffers]);
// A refusal stands alone, of a read with the position. One that changed what it was lent is packed as an answer, so that the case differs.
const unlessRefused = (pack, refusal = first) => asked => asked.answer !== 0 && asked.kept ? refusal(asked) : pack(asked);
const refusable = unlessRefused(whole);
const read = unlessRefused(whole, asked => Buffer.concat([first(asked), bytesOf(asked.after.position)]));
// A slot: its length, and its bytes up to the last that is not 0.
const encoded = unlessRefused(asked => {
    const { header_crc32c, slot } = asked.after, used = slot.findLastIndex(byte => byte !== 0) + 1;
    return Buffer.concat([first(asked), bytesOf(header_crc32c), packed(16, slot.length), slot.subarray(0, used)]);
});

// ---- the lists

const reads = name => [read, name, position, numbers, rest('bytes')];
const writes = name => [whole, name, position, numbers, rest('bytes')];
const judged = [refusable, 'sio_judge', numbers, unwritten('verdicts'), rest('frames')];

// By the name of a case: how its answer is packed, the function, and the fields of the input.
const LISTS = {
    replay: {
        crc: [number(32), 'sio_crc32c', rest('bytes')],
        app: [number(32), 'sio_crc32c_append', numbers, rest('bytes')],
        gap: [number(32), 'sio_crc32c_gap', measured('head'), size('zeros'), rest('tail')],
        ru1: reads('sio_read_u8'),
        ru2: reads('sio_read_u16'),
        ru4: reads('sio_read_u32'),
        ru8: reads('sio_read_u64'),
        run: reads('sio_read_bytes'),
        a16: reads('sio_read_array16'),
        a24: reads('sio_read_array24'),
        wu1: writes('sio_write_u8'),
        wu2: writes('sio_write_u16'),
        wu4: writes('sio_write_u32'),
        wu8: writes('sio_write_u64'),
        wby: [whole, 'sio_write_bytes', position, measured('src'), rest('bytes')],
        wze: writes('sio_write_zeros'),
    },
    replay_slots: {
        enc: [encoded, 'sio_encode', numbers, filled('slot'), rest('payload')],
        val: [whole, 'sio_validate', numbers, slot],
        fac: [whole, 'sio_header_facts', numbers, slot],
        frm: [whole, 'sio_frame_slot', numbers, slot],
        dec: [refusable, 'sio_decide', numbers],
    },
    replay_meta: {
        nam: [refusable, 'sio_region_name', rest('name')],
        pad: [refusable, 'sio_region_name_padded', numbers],
        vde: [refusable, 'sio_volume_decode', rest('bytes')],
        ven: [refusable, 'sio_volume_encode', numbers, filled('bytes')],
        bde: [refusable, 'sio_volume_base_decode', rest('bytes')],
        ben: [refusable, 'sio_volume_base_encode', numbers, filled('bytes')],
        epp: [number(16), 'sio_entries_per_page', numbers],
        end: [refusable, 'sio_table_end', numbers],
        fit: [refusable, 'sio_check_file_len', numbers],
        pde: [refusable, 'sio_decode_page', numbers, rest('bytes')],
        pen: [refusable, 'sio_encode_page', numbers, filled('bytes'), rest('entries')],
        ere: [refusable, 'sio_read_entry', rest('entry')],
        ewr: [refusable, 'sio_write_entry', numbers, filled('bytes')],
        ech: [refusable, 'sio_check_entry', numbers, rest('entry')],
        raw: [refusable, 'sio_entry_to_raw', numbers, rest('entry')],
        ena: [refusable, 'sio_entry_name', rest('entry')],
        enk: [refusable, 'sio_entry_name_and_kind', rest('entry')],
        rsp: [refusable, 'sio_reserved_span', numbers, unused(8), rest('entry')],
    },
    replay_judge: { jdg: judged, frm: judged },
    replay_plan: {
        num: [refusable, 'sio_next_number', numbers, frames],
        win: [refusable, 'sio_heal_number', numbers, frames],
        pln: [refusable, 'sio_plan_write', numbers, frames],
        hea: [refusable, 'sio_plan_heal', numbers, frames],
        wrt: [refusable, 'sio_next_write', numbers, filled('slot'), measured('payload'), frames],
    },
};

// The answer to an input, in hexadecimal. A call that does not come back gives its error.
function answerOf([pack, name, ...fields], input, ask, { signatures, constants }) {
    const given = Object.assign({}, ...fields.map(field => field(input, signatures[name].parameters, constants)));
    if (input.left.length > 0) throw new Error(`${input.at}: the input is too long`);
    try {
        return pack(ask(name, given)).toString('hex');
    } catch (error) {
        return `${error.name}: ${error.message}`;
    }
}

// Replays a list: how many cases are equal and how many there are, how many of each name are left out, and what differs.
function replayed(list, ask, declared) {
    const result = { list, equal: 0, cases: 0, leftOut: {}, different: [] };
    const lines = readFileSync(path.join(root, 'crates', list, 'stdin'), 'latin1').split('\n');
    if (lines.pop() !== '') throw new Error(`${list}: the last line has no end`);
    lines.forEach((line, i) => {
        const [, name, input, want] = /^([a-z0-9]+) (-|(?:[0-9a-f]{2})+) (-|(?:[0-9a-f]{2})+)$/.exec(line) ?? [];
        const at = `${list}, line ${i + 1}`;
        if (name === undefined) throw new Error(`${at}: no case`);
        if (Object.hasOwn(LEFT_OUT[list] ?? {}, name)) {
            result.leftOut[name] = (result.leftOut[name] ?? 0) + 1;
            return;
        }
        if (!Object.hasOwn(LISTS[list], name)) throw new Error(`${at}: no function is known for ${name}`);
        const got = answerOf(LISTS[list][name], new Input(Buffer.from(input.replace('-', ''), 'hex'), at), ask, declared) || '-';
        result.cases += 1;
        if (got === want) result.equal += 1;
        else result.different.push(`${at}, ${name}\n got  ${got}\n want ${want}`);
    });
    if (result.cases === 0) throw new Error(`${list}: no case`);
    return result;
}

// ---- direct calls

// Asks the functions that have no case in the lists. Gives how many answers were compared, and what differs.
function directCalls(ask, constants) {
    const result = { compared: 0, different: [] };
    const compare = (what, got, want) => {
        result.compared += 1;
        try {
            deepStrictEqual(got, want);
        } catch {
            result.different.push(`${what}\n got  ${inspect(got)}\n want ${inspect(want)}`);
        }
    };
    const answers = (what, name, given, want) => compare(`${name}, ${what}`, ask(name, given).answer, want);
    const fills = (what, name, given, ...want) => {
        const { answer, arrays } = ask(name, given);
        compare(`${name}, ${what}`, [answer, ...arrays.map(array => [...array].map(Number))], want);
    };
    const refuses = (what, name, given, number) => {
        const { answer, kept } = ask(name, given);
        compare(`${name}, ${what}`, [answer, kept], [number, true]);
    };

    answers('as in the header', 'sio_version', {}, constants.SIO_VERSION);

    // From a position past the end nothing is left, also where its lower 32 bits are a position within the buffer.
    for (const [at, left] of [[0n, 5n], [2n, 3n], [5n, 0n], [6n, 0n], [1n << 32n, 0n], [(1n << 64n) - 1n, 0n]]) {
        answers(`five bytes from ${at} on`, 'sio_remaining', { bytes: new Uint8Array(5), position: at }, left);
    }

    // The store of docs/FORMAT.md, "The program verdicts". Pair 0: A Valid, of generation and number 1, and B Blank. Pair 1: A Valid, of
    // generation and number 2, and B torn in its payload, of generation and number 3. Both are operator 0's.
    const [mark, ...lines] = readFileSync(path.join(root, 'examples', 'store.txt'), 'latin1').trim().split('\n');
    const frames = Uint8Array.from(Buffer.from(lines.join(''), 'hex'));
    const store = { frames, clean: parseInt(mark, 16) };
    compare('examples/store.txt', [store.clean, frames.length], [0, 2 * constants.SIO_FRAME_LEN]);
    // The same with another pair 1: an Empty one of operator 1, a Fork, and one whose A has the last number.
    const withPair = change => {
        const changed = frames.slice();
        change(changed.subarray(constants.SIO_FRAME_LEN));
        return changed;
    };
    const part = constants.SIO_PART_LEN;
    const empty = withPair(frame => {
        frame.fill(0);
        frame[0] = frame[part] = constants.SIO_STATUS_BLANK;
        frame[constants.SIO_FRAME_OPERATOR] = 1;
    });
    const fork = withPair(frame => frame.copyWithin(part, 0, part));
    const last = withPair(frame => frame.fill(255, constants.SIO_PART_META_SEQ, constants.SIO_PART_META_SEQ + 8));

    fills('above the torn write', 'sio_next_number', { frames, operator_id: 0 }, 0, [4]);
    fills('above the winners', 'sio_heal_number', { frames, operator_id: 0 }, 0, [3]);
    for (const name of ['sio_next_number', 'sio_heal_number']) {
        fills('of an operator without a pair', name, { frames, operator_id: 15 }, 0, [1]);
        refuses('of no operator', name, { frames, operator_id: 16 }, 10);
        refuses('above the last number', name, { frames: last, operator_id: 0 }, 48);
        refuses('without frames', name, { frames: new Uint8Array(0), operator_id: 0 }, 8);
    }

    fills('pair 0', 'sio_plan_write', { frames, pair: 0n }, 0, [2, 2, 0x11111111, 4]);
    fills('pair 1', 'sio_plan_write', { frames, pair: 1n }, 0, [2, 3, 0x22222222, 4]);
    fills('an Empty pair of another operator', 'sio_plan_write', { frames: empty, pair: 1n }, 0, [1, 1, 0, 1]);
    fills('a Fork', 'sio_plan_write', { frames: fork, pair: 1n }, 0, [0, 0, 0, 0]);
    refuses('no such pair', 'sio_plan_write', { frames, pair: 2n }, 8);
    refuses('no such pair, but the lower 32 bits of one', 'sio_plan_write', { frames, pair: 1n << 32n }, 8);

    fills('the torn write', 'sio_plan_heal', store, 0, [1, 2, 3, 0x22222222, 3]);
    fills('under the clean mark', 'sio_plan_heal', { frames, clean: 1 }, 0, [0, 0, 0, 0, 0]);
    refuses('no clean mark', 'sio_plan_heal', { frames, clean: 2 }, 10);

    // The next write of pair 1 is what sio_encode writes by its plan, of format 2.
    const identity = { volume0: 0x0706050403020100n, volume1: 0x0f0e0d0c0b0a0908n, object_id: 1n << 61n, log2_slot_size: 9 };
    const fresh = () => new Uint8Array(512).fill(0x55);
    const offsets = { a_offset: 8192n, b_offset: 12288n };
    const write = { ...identity, ...offsets, owner_generation: 7n, compat_flags: 5, payload: Buffer.from('the next record') };
    const encode = (index, generation, meta_seq, prev_header_crc32c, payload) => ask('sio_encode', {
        ...identity, slot: fresh(), generation, owner_generation: 7n, slot_offset: [offsets.a_offset, offsets.b_offset][index], index,
        prev_header_crc32c, format_major: 2, meta_seq, compat_flags: 5, payload }).after;
    const next = ask('sio_next_write', { ...write, frames, pair: 1n, slot: fresh() });
    const same = encode(1, 3n, 4n, 0x22222222, write.payload);
    compare('sio_next_write, its plan', [next.answer, [...next.after.plan]], [0, [2n, 3n, 0x22222222n, 4n]]);
    compare('sio_next_write, its slot', [next.after.slot, next.after.header_crc32c], [same.slot, same.header_crc32c]);
    const none = ask('sio_next_write', { ...write, frames: fork, pair: 1n, slot: fresh() });
    compare('sio_next_write, a Fork', [none.answer, [...none.after.plan], none.after.slot, none.after.header_crc32c],
        [0, [0n, 0n, 0n, 0n], fresh(), Uint32Array.of(0xffffffff)]);
    refuses('a payload that is too long', 'sio_next_write', { ...write, frames, pair: 1n, slot: fresh(), payload: new Uint8Array(385) }, 3);

    // A pair of two records: A of generation 1, and B of generation 2, which wins.
    const a = encode(0, 1n, 1n, 0, Buffer.from('older')), [crcA] = a.header_crc32c;
    const b = encode(1, 2n, 2n, crcA, Buffer.from('the winner')), [crcB] = b.header_crc32c;
    const pair = { ...identity, ...offsets, format_major: 2, numbered: 1 };
    fills('B above A', 'sio_winner_payload', { ...pair, a: a.slot, b: b.slot }, 2,
        [1, 7, crcA, 0, 0, 5, 1, 128, 5], [2, 7, crcB, crcA, 0, 5, 2, 128, 10], [12, 12, 0, 2, 0, 0, 1], [128], [10]);
    fills('two Blank slots', 'sio_winner_payload', { ...pair, a: new Uint8Array(512), b: new Uint8Array(512) }, 0,
        new Array(9).fill(0), new Array(9).fill(0), [2, 2, 4, 0, 0, 0, 1], [0], [0]);
    return result;
}

// ---- what the caller refuses

// A module that imports a function b of a.
const IMPORTING = Uint8Array.of(0, 97, 115, 109, 1, 0, 0, 0, 1, 4, 1, 96, 0, 0, 2, 7, 1, 1, 97, 1, 98, 0, 0);

// Other arguments than the header's, more than the memory holds, other functions than the module's, and a module with an import: each has to be an
// error of its kind before anything is called.
async function refusedCalls(library, module, signatures) {
    const { sio_version: version, ...fewer } = signatures, more = { ...signatures, sio_other: version };
    const cases = [
        ['no bytes', TypeError, () => library.sio_crc32c('text')],
        ['no argument', TypeError, () => library.sio_crc32c()],
        ['an argument more', TypeError, () => library.sio_version(1)],
        ['a number that is too large', TypeError, () => library.sio_entries_per_page(256)],
        ['more than the memory holds', RangeError, () => library.sio_crc32c(new Uint8Array(1 << 20))],
        ['a function that the header has not', TypeError, () => instantiate(module, fewer)],
        ['a function that the module has not', TypeError, () => instantiate(module, more)],
        ['an import', TypeError, () => instantiate(IMPORTING, signatures)],
    ];
    const different = [];
    for (const [what, kind, call] of cases) {
        const got = await Promise.resolve().then(call).then(() => 'nothing', error => error);
        if (!(got instanceof kind)) different.push(`a call with ${what}\n got  ${inspect(got)}\n want ${kind.name}`);
    }
    return { compared: cases.length, different };
}

// ---- modules

// Whether a module answers as it has to; prints a line of it, and before it what differs first.
async function replay(file, declared) {
    const { signatures, constants } = declared;
    const module = readFileSync(file), library = await instantiate(module, signatures);
    const called = new Set(), ask = asker(library, signatures, called);
    const lists = Object.keys(LISTS).map(list => replayed(list, ask, declared)), direct = directCalls(ask, constants);
    const refused = await refusedCalls(library, module, signatures);
    const different = [...lists, direct, refused].flatMap(result => result.different);
    const idle = Object.keys(signatures).filter(name => !called.has(name));
    if (different.length > 0) console.log(`${file}: answers that differ: ${different.length}, the first is of ${different[0]}`);
    if (idle.length > 0) console.log(`${file}: not called: ${idle.join(' ')}`);
    const counted = lists.map(({ list, equal, cases }) => `${list} ${equal} of ${cases}`).join(', ');
    const leftOut = lists.flatMap(({ list, leftOut }) => Object.entries(leftOut).map(([name, count]) =>
        `; left out of ${list}: ${count} ${name} (${LEFT_OUT[list][name]})`)).join('');
    const besides = Object.entries({ direct, 'refused by the caller': refused }).map(([what, { compared, different: unlike }]) =>
        `${what} ${compared - unlike.length} of ${compared}`).join(', ');
    console.log(`${file}: equal: ${counted}, ${besides}; ${called.size} of ${Object.keys(signatures).length} functions called${leftOut}`);
    return different.length === 0 && idle.length === 0;
}

async function main(files) {
    if (files.length === 0) throw new Error('usage: docs/lesson/replay.js MODULE...');
    const [program, header] = [path.join(__dirname, 'header.py'), path.join(root, 'include', 'store_io.h')];
    const declared = JSON.parse(execFileSync('python3', [program, header], { encoding: 'utf8' }));
    for (const file of files) {
        const equal = await replay(file, declared).catch(error => console.error(`${file}: ${error.message}`));
        if (!equal) process.exitCode = 1;
    }
}

main(process.argv.slice(2)).catch(error => {
    console.error(`docs/lesson/replay.js: ${error.message}`);
    process.exitCode = 1;
});
