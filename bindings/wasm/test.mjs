// Tests the wrapper and its module beside the engine's own strings and codecs: `node test.mjs FOLDER [COUNT [SEED]]`, with
// the folder of the npm package, on COUNT random texts.
import assert from "node:assert/strict";
import { pathToFileURL } from "node:url";
import path from "node:path";

const [folder, count = "2000", seed = "1"] = process.argv.slice(2);
const { load, Lossy, Order, Scheme, Fault } = await import(pathToFileURL(path.resolve(folder, "index.mjs")));
const wide = await load();

let state = Number(seed) >>> 0;
/** Returns a number below `end` (mulberry32). */
function below(end) {
    state = (state + 0x6d2b79f5) >>> 0;
    let mixed = Math.imul(state ^ (state >>> 15), state | 1);
    mixed ^= mixed + Math.imul(mixed ^ (mixed >>> 7), mixed | 61);
    return ((mixed ^ (mixed >>> 14)) >>> 0) % end;
}

const UNITS = [0x41, 0x7f, 0x80, 0x7ff, 0x800, 0xd7ff, 0xd800, 0xdbff, 0xdc00, 0xdfff, 0xe000, 0xfeff, 0xffff];
function anyText() {
    const isAscii = below(3) === 0;
    return Array.from({ length: below(40) }, () => String.fromCharCode(isAscii ? below(0x80) : UNITS[below(UNITS.length)])).join("");
}
/** The units of a string that belong to no pair, by their offsets. */
function faultsOf(text) {
    return [...text.matchAll(/[\ud800-\udbff](?![\udc00-\udfff])|(?<![\ud800-\udbff])[\udc00-\udfff]/g)].map((it) => it.index);
}
function lossyOf(text, policy) {
    const fault = "(?:[\\ud800-\\udbff](?![\\udc00-\\udfff])|(?<![\\ud800-\\udbff])[\\udc00-\\udfff])";
    return text.replace(new RegExp(policy === Lossy.Run ? `${fault}+` : fault, "g"), policy === Lossy.Skip ? "" : "\ufffd");
}
function strict(call, offset) {
    assert.throws(call, (error) => error instanceof Fault && error.offset === offset);
}

const utf8 = new TextEncoder();
for (let turn = 0; turn < Number(count); turn += 1) {
    const text = anyText();

    const faults = faultsOf(text);
    assert.equal(wide.utf16FirstFault(text), faults[0]);
    assert.equal(wide.utf16FaultCount(text), faults.length);
    assert.equal(wide.utf16CharCount(text), faults.length ? undefined : [...text].length);
    assert.equal(wide.utf16IsAscii(text), /^[\0-\x7f]*$/.test(text));
    assert.equal(wide.toString16(wide.utf16Repair(text)), lossyOf(text, Lossy.Each));
    assert.deepEqual(wide.utf16Items(text).map((it) => it.value), [...text].map((it) => it.codePointAt(0)));
    assert.deepEqual(wide.utf16Items(text).filter((it) => it.isFault).map((it) => it.offset), faults);
    for (const policy of Object.values(Lossy)) {
        const wanted = lossyOf(text, policy);
        assert.deepEqual(wide.utf16ToUtf8(text, policy), utf8.encode(wanted));
        assert.deepEqual([...wide.utf16ToUtf32(text, policy)], [...wanted].map((it) => it.codePointAt(0)));
    }
    if (faults.length) {
        strict(() => wide.utf16ToUtf8(text), faults[0]);
        strict(() => wide.utf16ToUtf32(text), faults[0]);
    } else {
        const bytes = utf8.encode(text);
        assert.deepEqual(wide.utf16ToUtf8(text), bytes);
        assert.equal(wide.toString16(wide.utf8ToUtf16(bytes)), text);
        assert.equal(wide.toString16(wide.utf32ToUtf16(wide.utf8ToUtf32(bytes))), text);
        assert.equal(wide.utf8FirstFault(bytes), undefined);
        assert.equal(wide.utf8CharCount(bytes), [...text].length);
    }
    // Bytes that may be ill-formed.
    const bytes = utf8.encode(lossyOf(text, Lossy.Each)).map((it) => (below(20) ? it : below(256)));
    const decoded = new TextDecoder("utf-8", { ignoreBOM: true }).decode(bytes);
    assert.equal(wide.toString16(wide.utf8ToUtf16(bytes, Lossy.Each)), decoded);
    // WTF-8, and bytes in both orders.
    const stored = wide.utf16ToWtf8(text);
    assert.equal(wide.toString16(wide.wtf8ToUtf16(stored)), text);
    assert.equal(wide.wtf8FirstFault(stored), undefined);
    for (const order of Object.values(Order)) {
        assert.equal(wide.toString16(wide.utf16FromBytes(wide.utf16ToBytes(text, order), order)), text);
    }
    // Searches.
    const needle = text.slice(below(text.length + 1)).slice(0, below(4));
    const at = text.indexOf(needle), last = text.lastIndexOf(needle);
    assert.equal(wide.utf16Find(text, needle), at);
    assert.equal(wide.utf16Rfind(text, needle), last);
    assert.equal(wide.utf16Find(text, "\u2603"), undefined);
    const isLetter = (it) => it.replace(/[A-Z]+/g, (letters) => letters.toLowerCase());
    assert.equal(wide.toString16(wide.utf16ToAsciiLowercase(text)), isLetter(text));
    assert.ok(wide.utf16EqIgnoreAsciiCase(text, isLetter(text)));
    // Piece by piece.
    const converter = wide.converter(Scheme.Utf16Be, Scheme.Utf8, Lossy.Each);
    const input = wide.utf16ToBytes(text, Order.Big);
    const pieces = [];
    let done = 0;
    while (done < input.length) {
        const next = Math.min(input.length, done + 1 + below(7));
        pieces.push(converter.convert(input.subarray(done, next)));
        done = next;
    }
    pieces.push(converter.convert(new Uint8Array(), true));
    assert.equal(Buffer.concat(pieces).toString(), lossyOf(text, Lossy.Each));
    assert.equal(converter.faults, faults.length);
}
// Long texts fit into the memory, and what was returned stays.
const before = wide.utf16ToUtf8("kept");
const long = "long\ud83d\ude00".repeat(1_000_000);
assert.deepEqual(wide.utf16ToUtf8(long), utf8.encode(long));
assert.equal(wide.toString16(wide.utf8ToUtf16(utf8.encode(long))), long);
assert.equal(Buffer.from(before).toString(), "kept");
assert.throws(() => wide.utf16ToUtf8(new Uint16Array(2 ** 28)), RangeError);
// Items across the parts in which a text is looked at, and of faults alone.
for (let length = 60; length < 200; length += 1) {
    const text = "a".repeat(length) + "\ud83d\ud83d\ude00".repeat(60) + "\ud83d";
    assert.deepEqual(wide.utf16Items(text).map((it) => it.value), [...text].map((it) => it.codePointAt(0)));
}
assert.ok(wide.utf16Items("\ude00".repeat(300_000)).every((it) => it.isFault));
assert.equal(wide.utf16FloorCharBoundary("a\ud83d\ude00", 2), 1);
assert.throws(() => wide.utf16ToUtf8(new Uint8Array(2)), TypeError);
assert.throws(() => wide.utf16ToUtf8("", 3), RangeError);
assert.throws(() => wide.utf16FromBytes(new Uint8Array(1), Order.Little), RangeError);
strict(() => wide.converter(Scheme.Utf8, Scheme.Utf16Le).convert(new Uint8Array([0x41, 0xff])), 1);
console.log(`${count} texts agree`);
