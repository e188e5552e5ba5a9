/**
 * UTF-16, UTF-32, UTF-8 and WTF-8 by a WebAssembly module whose functions are proved for all input, well formed or not.
 * The module is proved; this file, which copies text into its memory and results out of it, is tested.
 *
 * UTF-16 is a string or a Uint16Array, UTF-32 a Uint32Array, and UTF-8, WTF-8 and bytes of units a Uint8Array. Offsets
 * and lengths are counted in their elements. Results are new arrays.
 *
 *     import { load, Lossy } from "widestring-wasm";
 *     const wide = await load();
 *     wide.utf16FirstFault("Hi\ud83d");             // 2
 *     wide.utf16ToUtf8("Hi\ud83d", Lossy.Each);     // the bytes of "Hi\ufffd"
 */

/** What lossy conversions write for ill-formed sequences: U+FFFD for each, one for each run of them, or nothing. */
export const Lossy = Object.freeze({ Each: 0, Run: 1, Skip: 2 });

/** The order of the bytes of a unit. */
export const Order = Object.freeze({ Little: 0, Big: 1 });

/** Encoding schemes: how a text is stored as bytes. */
export const Scheme = Object.freeze({ Utf8: 0, Utf16Le: 1, Utf16Be: 2, Utf16: 3, Utf32Le: 4, Utf32Be: 5, Utf32: 6, Wtf8: 7 });

/** Reports ill-formed text: the error of strict conversions. `offset` is that of the first ill-formed sequence. */
export class Fault extends RangeError {
    constructor(offset) {
        super(`ill-formed at offset ${offset}`);
        this.name = "Fault";
        this.offset = offset;
    }
}

/** What a function returns if it has no number to report. */
const NONE = 2n ** 64n - 1n;
const ARRAYS = { 1: Uint8Array, 2: Uint16Array, 4: Uint32Array };
/** A policy of converters alone: they stop at each fault. */
const STRICT = 3;
const NEEDS_INPUT = 0;
const AT_FAULT = 2;
/** The length of a converter in bytes, and the offsets of its fields that are read. */
const CONVERTER = { length: 112, read: 0, kept: 8, bytes: 16, items: 24, faults: 32, fault: 40, end: 60 };
const PIECE = 16384;
const SPACE = 4 * PIECE + 128;
/** How many units are looked at for a fault at first. */
const WINDOW = 64;

/** The size of a unit, of a name of the C library. */
function widthOf(name) {
    return { utf16: 2, utf32: 4 }[name.split("_")[0]] ?? 1;
}

/** Returns a text as an array of units of this size. */
function unitsOf(text, width) {
    if (typeof text === "string" && width === 2) {
        const units = new Uint16Array(text.length);
        for (let index = 0; index < units.length; index += 1) {
            units[index] = text.charCodeAt(index);
        }
        return units;
    }
    const kind = ARRAYS[width];
    if (!(text instanceof kind)) {
        throw new TypeError(`${width === 2 ? "a string or " : ""}a ${kind.name} is required`);
    }
    return text;
}

function named(value, names, what) {
    if (!Object.values(names).includes(value)) {
        throw new RangeError(`${String(value)} is none of ${what}`);
    }
    return value;
}

/** The functions of one instance of the module, and its memory, which holds arguments and results during a call. */
export class Widestring {
    #exports;
    #memory;
    #base;

    constructor(instance) {
        this.#exports = instance.exports;
        this.#memory = instance.exports.memory;
        this.#base = (Number(instance.exports.__heap_base.value) + 15) & -16;
    }

    /** Returns the offsets in memory for blocks of these lengths in bytes. The memory has a fixed size. */
    #places(lengths) {
        let end = this.#base;
        const places = lengths.map((length) => {
            const place = end;
            end += (length + 15) & -16;
            return place;
        });
        if (end > this.#memory.buffer.byteLength) {
            throw new RangeError(`the text is too long: ${this.#memory.buffer.byteLength} bytes of memory are not enough for it and its result`);
        }
        return places;
    }

    #put(place, array) {
        new array.constructor(this.#memory.buffer, place, array.length).set(array);
    }

    #call(name, ...numbers) {
        return this.#exports[`wide_${name}`](...numbers);
    }

    /** Calls a function of one or more texts, each given as an array, and then of numbers. */
    #ask(name, arrays, ...numbers) {
        const places = this.#places(arrays.map((array) => array.byteLength));
        arrays.forEach((array, index) => this.#put(places[index], array));
        return this.#call(name, ...arrays.flatMap((array, index) => [BigInt(places[index]), BigInt(array.length)]), ...numbers);
    }

    /** Returns the array that a function writes, or null if it reports a fault. */
    #write(name, array, width, ...numbers) {
        const ask = (capacity) => {
            const [input, output] = this.#places([array.byteLength, capacity * width]);
            this.#put(input, array);
            const length = this.#call(name, BigInt(input), BigInt(array.length), ...numbers, BigInt(output), BigInt(capacity));
            return [BigInt.asUintN(64, length), output];
        };
        let [length, output] = ask(array.length);
        if (length === NONE) {
            return null;
        }
        if (Number(length) > array.length) {
            [length, output] = ask(Number(length));
        }
        return new ARRAYS[width](this.#memory.buffer, output, Number(length)).slice();
    }

    #offset(name, text, ...more) {
        const array = unitsOf(text, widthOf(name));
        const result = Number(this.#ask(name, [array], ...more));
        return result === array.length ? undefined : result;
    }

    #number(name, text, ...others) {
        const width = widthOf(name);
        const result = this.#ask(name, [text, ...others].map((it) => unitsOf(it, width)));
        // A 32-bit number is an answer; a length may be none.
        return typeof result === "bigint" && BigInt.asUintN(64, result) === NONE ? undefined : Number(result);
    }

    /** A conversion: strict without a policy. */
    #convert(name, text, policy, width) {
        const array = unitsOf(text, widthOf(name));
        if (policy !== undefined) {
            return this.#write(`${name}_lossy_with`, array, width, named(policy, Lossy, "Lossy"));
        }
        const result = this.#write(name, array, width);
        if (result === null) {
            throw new Fault(Number(this.#ask(`${name.split("_")[0]}_first_fault`, [array])));
        }
        return result;
    }

    /** The version of the module: major, minor and patch number. */
    version() {
        const number = this.#call("version");
        return [number >> 16, (number >> 8) & 0xff, number & 0xff];
    }

    // The offset of the first ill-formed sequence, or undefined if there is none.
    utf8FirstFault(text) { return this.#offset("utf8_first_fault", text); }
    utf16FirstFault(text) { return this.#offset("utf16_first_fault", text); }
    utf32FirstFault(text) { return this.#offset("utf32_first_fault", text); }
    wtf8FirstFault(text) { return this.#offset("wtf8_first_fault", text); }

    // How many ill-formed sequences there are.
    utf8FaultCount(text) { return this.#number("utf8_fault_count", text); }
    utf16FaultCount(text) { return this.#number("utf16_fault_count", text); }
    utf32FaultCount(text) { return this.#number("utf32_fault_count", text); }

    // How many characters there are, or undefined if the text is ill-formed.
    utf8CharCount(text) { return this.#number("utf8_char_count", text); }
    utf16CharCount(text) { return this.#number("utf16_char_count", text); }
    utf32CharCount(text) { return this.#number("utf32_char_count", text); }

    // Whether all characters are ASCII.
    utf8IsAscii(text) { return this.#number("utf8_is_ascii", text) !== 0; }
    utf16IsAscii(text) { return this.#number("utf16_is_ascii", text) !== 0; }
    utf32IsAscii(text) { return this.#number("utf32_is_ascii", text) !== 0; }

    /** Returns the greatest offset up to this one that is not between the halves of a surrogate pair. */
    utf16FloorCharBoundary(text, offset) {
        if (!Number.isInteger(offset) || offset < 0) {
            throw new RangeError("an offset is required");
        }
        return Number(this.#ask("utf16_floor_char_boundary", [unitsOf(text, 2)], BigInt(offset)));
    }

    // The offset of the first or the last occurrence of a needle, or undefined.
    utf16Find(text, needle) { return this.#number("utf16_find", text, needle); }
    utf32Find(text, needle) { return this.#number("utf32_find", text, needle); }
    utf16Rfind(text, needle) { return this.#number("utf16_rfind", text, needle); }
    utf32Rfind(text, needle) { return this.#number("utf32_rfind", text, needle); }
    utf16FindIgnoreAsciiCase(text, needle) { return this.#number("utf16_find_ignore_ascii_case", text, needle); }
    utf32FindIgnoreAsciiCase(text, needle) { return this.#number("utf32_find_ignore_ascii_case", text, needle); }
    utf16EqIgnoreAsciiCase(text, other) { return this.#number("utf16_eq_ignore_ascii_case", text, other) !== 0; }
    utf32EqIgnoreAsciiCase(text, other) { return this.#number("utf32_eq_ignore_ascii_case", text, other) !== 0; }

    // Below, equal to or above 0, as the code points of the texts compare.
    utf16CompareCodePoints(text, other) { return this.#number("utf16_compare_code_points", text, other); }
    utf32CompareCodePoints(text, other) { return this.#number("utf32_compare_code_points", text, other); }

    // Conversions: strict without a policy, where a fault throws Fault.
    utf16ToUtf8(text, policy) { return this.#convert("utf16_to_utf8", text, policy, 1); }
    utf32ToUtf8(text, policy) { return this.#convert("utf32_to_utf8", text, policy, 1); }
    utf8ToUtf16(text, policy) { return this.#convert("utf8_to_utf16", text, policy, 2); }
    utf8ToUtf32(text, policy) { return this.#convert("utf8_to_utf32", text, policy, 4); }
    utf16ToUtf32(text, policy) { return this.#convert("utf16_to_utf32", text, policy, 4); }
    utf32ToUtf16(text, policy) { return this.#convert("utf32_to_utf16", text, policy, 2); }
    wtf8ToUtf16(text) { return this.#convert("wtf8_to_utf16", text, undefined, 2); }
    utf16ToWtf8(text) { return this.#write("utf16_to_wtf8", unitsOf(text, 2), 1); }

    // A copy with U+FFFD for each ill-formed unit, or with ASCII letters in the other case.
    utf16Repair(text) { return this.#write("utf16_repair", unitsOf(text, 2), 2); }
    utf32Repair(text) { return this.#write("utf32_repair", unitsOf(text, 4), 4); }
    utf16ToAsciiLowercase(text) { return this.#write("utf16_to_ascii_lowercase", unitsOf(text, 2), 2); }
    utf16ToAsciiUppercase(text) { return this.#write("utf16_to_ascii_uppercase", unitsOf(text, 2), 2); }
    utf32ToAsciiLowercase(text) { return this.#write("utf32_to_ascii_lowercase", unitsOf(text, 4), 4); }
    utf32ToAsciiUppercase(text) { return this.#write("utf32_to_ascii_uppercase", unitsOf(text, 4), 4); }

    // Units as bytes in an order, and back; a length that is no multiple of a unit's throws RangeError.
    utf16ToBytes(text, order) { return this.#write("utf16_to_bytes", unitsOf(text, 2), 1, named(order, Order, "Order")); }
    utf32ToBytes(text, order) { return this.#write("utf32_to_bytes", unitsOf(text, 4), 1, named(order, Order, "Order")); }
    utf16FromBytes(bytes, order) { return this.#fromBytes("utf16_from_bytes", bytes, order, 2); }
    utf32FromBytes(bytes, order) { return this.#fromBytes("utf32_from_bytes", bytes, order, 4); }

    #fromBytes(name, bytes, order, width) {
        const array = unitsOf(bytes, 1);
        if (array.length % width) {
            throw new RangeError("an incomplete unit is at the end");
        }
        return this.#write(name, array, width, named(order, Order, "Order"));
    }

    /** Returns UTF-16 as a string, whatever its units are. */
    toString16(units) {
        const parts = [];
        for (let at = 0; at < units.length; at += PIECE) {
            parts.push(String.fromCharCode(...units.subarray(at, at + PIECE)));
        }
        return parts.join("");
    }

    /**
     * Returns the items of UTF-16: for each character its scalar value, and for each ill-formed unit that unit, with the
     * offset and the number of units.
     */
    utf16Items(text) {
        const units = unitsOf(text, 2);
        const items = [];
        let offset = 0;
        // As many units are looked at as were passed without a fault, so that the time is linear.
        let window = WINDOW;
        while (offset < units.length) {
            const end = Math.min(units.length, offset + window);
            const part = units.subarray(offset, end);
            const fault = this.utf16FirstFault(part);
            for (const value of this.utf16ToUtf32(part.subarray(0, fault ?? part.length))) {
                const length = value > 0xffff ? 2 : 1;
                items.push({ offset, length, isFault: false, value });
                offset += length;
            }
            // The last unit of a part may be the first half of a pair.
            const mayGoOn = offset === end - 1 && end < units.length && (units[offset] & 0xfc00) === 0xd800;
            if (fault === undefined || mayGoOn) {
                window = Math.min(2 * window, PIECE);
                continue;
            }
            items.push({ offset, length: 1, isFault: true, value: units[offset] });
            offset += 1;
            window = WINDOW;
        }
        return items;
    }

    /** Returns a conversion of a text from one encoding scheme to another, piece by piece. */
    converter(from, to, policy, bom = false) {
        return new Converter(
            (lengths) => this.#places(lengths),
            this.#memory,
            this.#exports,
            [named(from, Scheme, "Scheme"), named(to, Scheme, "Scheme"), policy === undefined ? STRICT : named(policy, Lossy, "Lossy"), bom ? 1 : 0],
        );
    }
}

/** A conversion of a text from one encoding scheme to another, piece by piece: what it writes does not depend on them. */
export class Converter {
    #places;
    #memory;
    #exports;
    #strict;
    #state = new Uint8Array(CONVERTER.length);

    constructor(places, memory, exports, start) {
        this.#places = places;
        this.#memory = memory;
        this.#exports = exports;
        this.#strict = start[2] === STRICT;
        const [place] = places([CONVERTER.length]);
        if (exports.wide_convert_start(BigInt(place), ...start) === 0) {
            throw new Error("the module has other numbers of schemes");
        }
        this.#state = new Uint8Array(memory.buffer, place, CONVERTER.length).slice();
    }

    #field(offset) {
        return Number(new DataView(this.#state.buffer).getBigUint64(offset, true));
    }

    /** How many bytes of the text were converted, how many items they are, how many of these are ill-formed, and how many
     * bytes were read and are no item so far. */
    get bytes() { return this.#field(CONVERTER.bytes); }
    get items() { return this.#field(CONVERTER.items); }
    get faults() { return this.#field(CONVERTER.faults); }
    get kept() { return this.#field(CONVERTER.kept); }

    /** Returns what is written for the next bytes, which may end anywhere; with `final` they are the last ones. */
    convert(data, final = false) {
        const bytes = unitsOf(data, 1);
        const parts = [];
        for (let at = 0; at === 0 || at < bytes.length; at += PIECE) {
            this.#push(bytes.subarray(at, at + PIECE), final && at + PIECE >= bytes.length, parts);
        }
        if (final && this.kept && this.#strict) {
            throw new Fault(this.bytes);
        }
        const whole = new Uint8Array(parts.reduce((length, part) => length + part.length, 0));
        parts.reduce((at, part) => (whole.set(part, at), at + part.length), 0);
        return whole;
    }

    #push(piece, isLast, parts) {
        for (;;) {
            const [state, input, output] = this.#places([CONVERTER.length, PIECE, SPACE]);
            new Uint8Array(this.#memory.buffer, state, CONVERTER.length).set(this.#state);
            new Uint8Array(this.#memory.buffer, input, piece.length).set(piece);
            const written = this.#exports.wide_convert_push(BigInt(state), BigInt(input), BigInt(piece.length), isLast ? 1 : 0, BigInt(output), BigInt(SPACE));
            if (BigInt.asUintN(64, written) === NONE) {
                throw new Error("the module does not know its converter");
            }
            this.#state = new Uint8Array(this.#memory.buffer, state, CONVERTER.length).slice();
            parts.push(new Uint8Array(this.#memory.buffer, output, Number(written)).slice());
            const end = new DataView(this.#state.buffer).getUint32(CONVERTER.end, true);
            if (end === AT_FAULT) {
                throw new Fault(this.#field(CONVERTER.fault));
            }
            if (end === NEEDS_INPUT) {
                return;
            }
            piece = piece.subarray(this.#field(CONVERTER.read));
        }
    }
}

/**
 * Loads the module: the one beside this file, or that of a URL, or of bytes. The engine has to know 64-bit memory
 * (memory64), as Chromium 133, Firefox 134 and Node 24 do; Node 20 and 22 do with --experimental-wasm-memory64.
 */
export async function load(source = new URL("widestring.wasm", import.meta.url)) {
    let bytes = source;
    if (source instanceof URL || typeof source === "string") {
        const url = new URL(source, import.meta.url);
        if (url.protocol === "file:" && globalThis.process?.versions?.node) {
            bytes = await (await import("node:fs/promises")).readFile(url);
        } else {
            const response = await fetch(url);
            if (!response.ok) {
                throw new Error(`${url}: ${response.status} ${response.statusText}`);
            }
            bytes = await response.arrayBuffer();
        }
    }
    return new Widestring((await WebAssembly.instantiate(bytes, {})).instance);
}
