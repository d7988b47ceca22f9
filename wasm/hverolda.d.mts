// Types of hverolda.mjs. What each function answers, which refusals it gives and what every buffer holds afterwards is said in
// hverolda.h, at the function of the same name.

/** What Judge says. `number` is 0 where the interchange is accepted. The last six are bytes. */
export interface Verdict {
    number: number;
    segments: number;
    messages: number;
    groups: number;
    place: number;
    length: number;
    component: number;
    element: number;
    mark: number;
    release: number;
    repetition: number;
    terminator: number;
}

/** How many bytes were stored, or taken away; or a refusal's number and place. */
export interface Written {
    number: number;
    place: number;
    length: number;
}

export interface Comparison {
    number: number;
    input: number;
    same: number;
    place: number;
}

export interface Kept {
    input: number;
    offset: number;
    length: number;
}

export interface Location {
    number: number;
    present: number;
    place: number;
    offset: number;
    length: number;
}

export interface PartFound {
    offset: number;
    length: number;
}

/** Which parts of the input spell the sender, the recipient and the control reference. */
export interface PartiesFound {
    number: number;
    place: number;
    sender: PartFound;
    recipient: PartFound;
    reference: PartFound;
}

/** How the first piece of a mailbox file ends. */
export interface PieceEnd {
    number: number;
    ended: number;
    place: number;
    end: number;
}

export interface Listing {
    number: number;
    place: number;
    bytes: number;
    numbers: number;
}

export interface Started {
    number: number;
    place: number;
}

export interface Shelving {
    number: number;
    added: number;
    place: number;
    slot: number;
}

export interface Got {
    number: number;
    place: number;
    offset: number;
    length: number;
}

export interface SlotNumbers {
    number: number;
    place: number;
    occupied: number;
    lowest: number;
}

export interface SumNumbers {
    number: number;
    held: number;
    duplicates: number;
    place: number;
}

/** `refused` has fourteen numbers: how many are refused under each number, which is the index. */
export interface Morning {
    number: number;
    accepted: number;
    refused: number[];
    segments: number;
    messages: number;
    place: number;
    total: number;
    longest: number;
}

/** A number of 64 bits; a bigint where it may be over 2^53. */
export type Count = number | bigint;

/** The functions of hverolda.h. Buffers that are written to are altered in place. */
export interface Functions {
    judge(input: Uint8Array): Verdict;
    judgeByTable(table: Uint8Array, input: Uint8Array): Verdict;
    normalise(buffer: Uint8Array, input: Uint8Array): Written;
    compare(first: Uint8Array, second: Uint8Array): Comparison;
    keep(first: Uint8Array, second: Uint8Array): Kept;
    locateValue(input: Uint8Array, segment: Count, element: Count, repeat: Count, component: Count): Location;
    valuePart(input: Uint8Array, segment: Count, element: Count, repeat: Count, component: Count): PartFound;
    parties(input: Uint8Array): PartiesFound;
    read(bytes: Uint8Array, table: Uint32Array, input: Uint8Array): Listing;
    write(service: Uint8Array, bytes: Uint8Array, table: Uint32Array, output: Uint8Array): Written;
    acknowledge(
        received: Uint8Array,
        date: Uint8Array,
        dateTable: Uint32Array,
        reference: Uint8Array,
        referenceTable: Uint32Array,
        message: Uint8Array,
        messageTable: Uint32Array,
        output: Uint8Array,
    ): Written;
    export(buffer: Uint8Array, input: Uint8Array): Written;
    import(service: Uint8Array, columns: Uint8Array, output: Uint8Array): Written;
    shelfStart(shelf: Uint8Array): Started;
    shelfPut(shelf: Uint8Array, input: Uint8Array): Shelving;
    shelfGet(shelf: Uint8Array, slot: Count): Got;
    shelfRemove(shelf: Uint8Array, slot: Count): Written;
    shelfSlots(shelf: Uint8Array): SlotNumbers;
    shelfSums(shelf: Uint8Array): SumNumbers;
    shelfCarry(shelf: Uint8Array): Started;
    shelfCarryBack(shelf: Uint8Array): Started;
    report(file: Uint8Array): Morning;
    piece(file: Uint8Array): PieceEnd;
}

/** A number of an answer that has 64 bits is a bigint here. */
export type Exact<Answer> = Answer extends number ? number | bigint : { [Field in keyof Answer]: Exact<Answer[Field]> };

/** The same functions, with the 64-bit numbers of their answers as bigints. */
export type ExactFunctions = {
    [Name in keyof Functions]: (...values: Parameters<Functions[Name]>) => Exact<ReturnType<Functions[Name]>>;
};

export interface Hverolda extends Functions {
    /** The number of the rules. */
    readonly rules: number;
    /** Version, rules, commit and toolchain, as hverolda_version tells them. */
    readonly version: string;
    /** What a refusal's number means, as the end of a sentence; empty where there is no such number. */
    refusalText(number: number): string;
    readonly exact: ExactFunctions;
    /** The module's memory, and where calls lay in it what they are lent: for tests. */
    readonly memory: WebAssembly.Memory;
    readonly heap: number;
}

/** Loads hverolda.wasm: from the file beside hverolda.mjs, an address, its bytes, or a compiled module. */
export function load(source?: string | URL | BufferSource | WebAssembly.Module): Promise<Hverolda>;

/** For tests: each function's arguments and struct, a struct's fields, where slices lie, and the gap between them. */
export const functions: Readonly<Record<keyof Functions, string>>;
export function laidOut(struct: string): { key: string; offset: number; bytes: number; count?: number }[];
export function places(base: number, slices: ArrayBufferView[]): number[];
export const GAP: number;
