// Calls the C functions of the WebAssembly module by what the header says of them, as docs/lesson/header.py reads it. A page has this file
// within a script; node loads it.
//
// An argument is, by the kind of its parameter:
//   bytes         a Uint8Array, which stands for the pointer and the length after it
//   array         a typed array of the parameter's width and count, also where C has a pointer to one number
//   wide, narrow  a BigInt, a Number
// Bytes and arrays that are not const hold what the function wrote when the call returns. A result is a BigInt or a Number, by its kind.
'use strict';

const ARRAY_TYPES = { 8: Uint8Array, 16: Uint16Array, 32: Uint32Array, 64: BigUint64Array };

// What the argument for a parameter has to be, in words, and whether a value is that.
function argumentRule({ kind, bits, count }) {
    const type = ARRAY_TYPES[bits];
    switch (kind.replace(/^const /, '')) {
        case 'bytes':
            return { wanted: 'a Uint8Array', fits: value => value instanceof Uint8Array };
        case 'array':
            return { wanted: `a ${type.name} of length ${count}`, fits: value => value instanceof type && value.length === count };
        case 'wide':
            return { wanted: 'a BigInt of 64 bits', fits: value => typeof value === 'bigint' && BigInt.asUintN(64, value) === value };
        case 'narrow':
            return { wanted: `a Number of ${bits} bits`, fits: value => Number.isInteger(value) && value >= 0 && value < 2 ** bits };
        default:
            throw new TypeError(`a parameter of no known kind: ${kind}`);
    }
}

// The functions of an instance by their names. The module has to export the functions of the header and no others. Pointers are BigInt in a
// 32-bit memory too: docs/lesson/narrow.py leaves the signatures as they are.
function library(exports_, signatures) {
    const { memory, __heap_base: heap, ...functions } = exports_;
    const insist = (holds, complaint) => { if (!holds) throw new TypeError(complaint); };
    insist(memory instanceof WebAssembly.Memory && heap instanceof WebAssembly.Global, 'the module exports no memory or no __heap_base');
    insist(new Uint8Array(new Uint16Array([1]).buffer)[0] === 1, 'typed arrays are not little-endian here, and the memory of a module is');
    for (const name in functions) insist(Object.hasOwn(signatures, name), `the module exports ${name}, which is not in the header`);
    const aligned = address => Math.ceil(address / 16) * 16;

    // The library's function for one of the module.
    function caller(name, { parameters, result }) {
        const called = functions[name], rules = parameters.map(argumentRule);
        const words = parameters.reduce((sum, { kind }) => sum + (kind.endsWith('bytes') ? 2 : 1), 0);
        insist(typeof called === 'function', `the module exports no function ${name}`);
        insist(called.length === words, `${name} takes ${words} arguments by the header, and ${called.length} in the module`);
        insist(result === 'wide' || result === 'narrow', `a result of no known kind: ${result}`);
        return (...values) => {
            insist(values.length === parameters.length, `${name} takes ${parameters.length} arguments, not ${values.length}`);
            // No call keeps a pointer, so each begins with all the room. Below __heap_base the module has its stack and its tables.
            let top = aligned(Number(heap.value));
            const given = [], lent = [];
            parameters.forEach(({ name: parameter, kind }, i) => {
                const value = values[i];
                insist(rules[i].fits(value), `${name}: ${parameter} has to be ${rules[i].wanted}`);
                if (!ArrayBuffer.isView(value)) return given.push(value);
                const bytes = new Uint8Array(value.buffer, value.byteOffset, value.byteLength), left = memory.buffer.byteLength - top;
                const complaint = `${name}: the module's memory is too small: ${parameter} takes ${bytes.length} bytes, and ${left} are left`;
                if (bytes.length > left) throw new RangeError(complaint);
                new Uint8Array(memory.buffer).set(bytes, top);
                if (!kind.startsWith('const ')) lent.push({ bytes, at: top });
                given.push(BigInt(top));
                if (kind.endsWith('bytes')) given.push(BigInt(bytes.length));
                top = aligned(top + bytes.length);
            });
            const answer = called(...given);
            for (const { bytes, at } of lent) bytes.set(new Uint8Array(memory.buffer, at, bytes.length));
            return result === 'wide' ? BigInt.asUintN(64, answer) : answer >>> 0;
        };
    }
    return Object.freeze(Object.fromEntries(Object.entries(signatures).map(([name, signature]) => [name, caller(name, signature)])));
}

// The library of a module, from its bytes. A module that imports something is refused: what it imports would not be the library's.
async function instantiate(bytes, signatures) {
    const compiled = await WebAssembly.compile(bytes);
    const [first] = WebAssembly.Module.imports(compiled);
    if (first) throw new TypeError(`the module imports ${first.module}.${first.name}`);
    return library((await WebAssembly.instantiate(compiled, {})).exports, signatures);
}

if (typeof module !== 'undefined') module.exports = { ARRAY_TYPES, library, instantiate };
