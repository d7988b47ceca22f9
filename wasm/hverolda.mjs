// Hverolda in a browser or in Node: the functions of hverolda.h over hverolda.wasm, which is the proved module compiled for wasm32.
//
//     import { load } from './hverolda.mjs';
//     const hverolda = await load();
//     const verdict = hverolda.judge(new TextEncoder().encode("UNB+UNOA:1+.."));
//     if (verdict.number !== 0) console.log(`refused by ${verdict.number} at ${verdict.place}`);
//
// Each function has the header's name without its prefix, in camel case, and the header's arguments: a slice is a Uint8Array, or a
// Uint32Array where the header has uint32_t, and a number is a number. What the header says is written to is written to in place.
// The struct that comes back is an object with the header's fields. Of this file nothing is proved.
// No licence has been chosen by the owner: nothing here grants a right to use, copy or hand it on.

// The rules that this file was written for.
const RULES = 5;

// A struct's fields: name, bytes, and how many there are where it is an array. A name with a dot is a field of a struct in it.
const structs = {
    verdict: 'number:4 segments:4 messages:4 groups:4 place:8 length:8 component:1 element:1 mark:1 release:1 repetition:1 terminator:1',
    written: 'number:4 place:8 length:8',
    comparison: 'number:4 input:4 same:4 place:8',
    kept: 'input:4 offset:8 length:8',
    location: 'number:4 present:4 place:8 offset:8 length:8',
    part: 'offset:8 length:8',
    listing: 'number:4 place:8 bytes:8 numbers:8',
    started: 'number:4 place:8',
    shelving: 'number:4 added:4 place:8 slot:8',
    got: 'number:4 place:8 offset:8 length:8',
    slots: 'number:4 place:8 occupied:8 lowest:8',
    sums: 'number:4 held:4 duplicates:4 place:8',
    parties: 'number:4 place:8 sender.offset:8 sender.length:8 recipient.offset:8 recipient.length:8 reference.offset:8 reference.length:8',
    piece: 'number:4 ended:4 place:8 end:8',
    morning: 'number:4 accepted:4 refused:4:14 segments:4 messages:4 place:8 total:8 longest:8',
};

// A function's arguments and struct. An argument is r, a slice that is read, w, one that is written to too, R or W, such a slice of
// 32-bit numbers, or n, a number.
export const functions = {
    judge: 'r verdict',
    judgeByTable: 'rr verdict',
    normalise: 'wr written',
    compare: 'rr comparison',
    keep: 'rr kept',
    locateValue: 'rnnnn location',
    valuePart: 'rnnnn part',
    parties: 'r parties',
    read: 'wWr listing',
    write: 'rrRw written',
    acknowledge: 'rrRrRrRw written',
    export: 'wr written',
    import: 'rrw written',
    shelfStart: 'w started',
    shelfPut: 'wr shelving',
    shelfGet: 'rn got',
    shelfRemove: 'wn written',
    shelfSlots: 'r slots',
    shelfSums: 'r sums',
    shelfCarry: 'w started',
    shelfCarryBack: 'w started',
    report: 'r morning',
    piece: 'r piece',
};

// Bytes that are left free between what is lent, and that no call writes to.
export const GAP = 64;

const aligned = (place, to) => Math.ceil(place / to) * to;

// The fields with their offsets, as a C compiler lays them out.
export function laidOut(name) {
    let end = 0;
    return structs[name].split(' ').map((field) => {
        const [key, bytes, count] = field.split(':');
        const offset = aligned(end, Number(bytes));
        end = offset + bytes * (count ?? 1);
        return { key, offset, bytes: Number(bytes), count: count && Number(count) };
    });
}

function valueAt(view, place, bytes) {
    if (bytes === 1) return view.getUint8(place);
    return bytes === 4 ? view.getUint32(place, true) : view.getBigUint64(place, true);
}

function structAt(view, place, fields) {
    const told = {};
    for (const { key, offset, bytes, count } of fields) {
        const at = (index) => valueAt(view, place + offset + index * bytes, bytes);
        const [outer, inner] = key.split('.');
        if (inner !== undefined) (told[outer] ??= {})[inner] = at(0);
        else told[key] = count === undefined ? at(0) : Array.from({ length: count }, (_, index) => at(index));
    }
    return told;
}

// Where the slices of a call lie, after the struct that it answers with.
export function places(base, slices) {
    let end = aligned(base, 16) + 128;
    return slices.map((slice) => {
        const place = aligned(end + GAP, 16);
        end = place + slice.byteLength;
        return place;
    });
}

function room(memory, bytes) {
    const missing = bytes - memory.buffer.byteLength;
    if (missing > 0) memory.grow(Math.ceil(missing / 65536));
}

const bytesOf = (slice) => new Uint8Array(slice.buffer, slice.byteOffset, slice.byteLength);

function checked(kind, value, name) {
    const wanted = { r: Uint8Array, w: Uint8Array, R: Uint32Array, W: Uint32Array }[kind];
    if (wanted ? !(value instanceof wanted) : typeof value !== 'bigint' && !(Number.isSafeInteger(value) && value >= 0)) {
        throw new TypeError(`${name}: expected ${wanted ? `a ${wanted.name}` : 'a whole number from 0 on'}`);
    }
}

// Calls one function; the struct's 64-bit numbers come back as bigints.
function call(exports, name, values) {
    const [kinds, struct] = functions[name].split(' ');
    if (values.length !== kinds.length) throw new TypeError(`${name}: expected ${kinds.length} arguments`);
    values.forEach((value, index) => checked(kinds[index], value, name));
    const slices = values.filter((_, index) => kinds[index] !== 'n');
    const lie = places(exports.__heap_base.value, slices);
    room(exports.memory, lie[lie.length - 1] + slices[slices.length - 1].byteLength + GAP);
    const memory = new Uint8Array(exports.memory.buffer);
    slices.forEach((slice, index) => memory.set(bytesOf(slice), lie[index]));
    let next = 0;
    const words = values.flatMap((value, index) =>
        kinds[index] === 'n' ? [BigInt.asUintN(64, BigInt(value))] : [lie[next++], BigInt(value.length)]);
    const answer = aligned(exports.__heap_base.value, 16);
    exports[`hverolda_${name.replace(/[A-Z]/g, (letter) => `_${letter.toLowerCase()}`)}`](answer, ...words);
    const written = [...kinds].filter((kind) => kind !== 'n');
    slices.forEach((slice, index) => {
        if ('wW'.includes(written[index])) bytesOf(slice).set(memory.subarray(lie[index], lie[index] + slice.byteLength));
    });
    return structAt(new DataView(exports.memory.buffer), answer, laidOut(struct));
}

// 64-bit numbers as numbers: none that the library makes is over 2^53, and what a caller gave comes back rounded there.
function narrowed(told) {
    if (typeof told === 'bigint') return Number(told);
    if (typeof told !== 'object' || Array.isArray(told)) return told;
    return Object.fromEntries(Object.entries(told).map(([key, value]) => [key, narrowed(value)]));
}

function textAt(memory, place) {
    const bytes = new Uint8Array(memory.buffer, place);
    return new TextDecoder().decode(bytes.slice(0, bytes.indexOf(0)));
}

async function compiled(source) {
    if (source instanceof WebAssembly.Module) return source;
    if (source instanceof ArrayBuffer || ArrayBuffer.isView(source)) return WebAssembly.compile(source);
    const url = new URL(source ?? 'hverolda.wasm', import.meta.url);
    if (url.protocol === 'file:') {
        const { readFile } = await import('node:fs/promises');
        return WebAssembly.compile(await readFile(url));
    }
    const response = await fetch(url);
    if (!response.ok) throw new Error(`hverolda: ${url} cannot be read: ${response.status}`);
    return WebAssembly.compile(await response.arrayBuffer());
}

// Loads the module: from the file beside this one, from an address, from its bytes, or from one that is compiled already.
export async function load(source) {
    const { exports } = await WebAssembly.instantiate(await compiled(source), {});
    if (exports.hverolda_rules() !== RULES) {
        throw new Error(`hverolda: hverolda.wasm has rules ${exports.hverolda_rules()}, and hverolda.mjs is for ${RULES}`);
    }
    const hverolda = {
        rules: RULES,
        version: textAt(exports.memory, exports.hverolda_version()),
        refusalText: (number) => textAt(exports.memory, exports.hverolda_refusal_text(number)),
        memory: exports.memory,
        heap: exports.__heap_base.value,
        exact: {},
    };
    for (const name of Object.keys(functions)) {
        hverolda.exact[name] = (...values) => call(exports, name, values);
        hverolda[name] = (...values) => narrowed(call(exports, name, values));
    }
    return Object.freeze(hverolda);
}
