// The page "Units and faults": fills its tables from what was typed. `wide` is the module's wrapper, and `Lossy` and
// `Order` are its policies and orders.
const hex = (number, digits) => number.toString(16).toUpperCase().padStart(digits, "0");
const hexOfBytes = (array) => [...array].map((byte) => hex(byte, 2)).join(" ");
const hexOfUnits = (array) => [...array].map((unit) => hex(unit, 4)).join(" ");
const counted = (number, what) => `${number} ${what}${number === 1 ? "" : "s"}`;
const byId = (id) => document.getElementById(id);

/** A row of a table, of texts alone. */
function row(cells, isFault = false) {
    const line = document.createElement("tr");
    if (isFault) {
        line.className = "units-fault";
    }
    for (const text of cells) {
        line.append(Object.assign(document.createElement("td"), { textContent: text }));
    }
    return line;
}

/** Controls, and what shows nothing, by their code points alone. */
function shown(value) {
    return /[\p{C}\p{Z}]/u.test(String.fromCodePoint(value)) ? "" : ` ${String.fromCodePoint(value)}`;
}

/** What is written for one item: the units of a fault have no UTF-8. */
function itemRow(wide, units, item) {
    const part = units.subarray(item.offset, item.offset + item.length);
    const name = item.isFault ? "fault" : `U+${hex(item.value, 4)}${shown(item.value)}`;
    const utf8 = item.isFault ? "none" : hexOfBytes(wide.utf16ToUtf8(part));
    const orders = [Order.Little, Order.Big].map((order) => hexOfBytes(wide.utf16ToBytes(part, order)));
    return row([item.offset, hexOfUnits(part), name, utf8, ...orders], item.isFault);
}

function show(wide, units) {
    const items = wide.utf16Items(units);
    const faults = wide.utf16FaultCount(units);
    const first = wide.utf16FirstFault(units);
    byId("units-summary").textContent =
        `${counted(units.length, "unit")}, ${counted(items.length - faults, "character")}, ${counted(faults, "fault")}` + (first === undefined ? ": well formed." : `, the first at offset ${first}.`);
    byId("units-items").replaceChildren(...items.map((item) => itemRow(wide, units, item)));
    const repaired = wide.utf16Repair(units);
    byId("units-texts").replaceChildren(
        row(["Repaired: U+FFFD for each fault", wide.toString16(repaired)]),
        row(["Its units", hexOfUnits(repaired)]),
        row(["UTF-8, strict", first === undefined ? hexOfBytes(wide.utf16ToUtf8(units)) : `fault at offset ${first}`]),
        row(["UTF-8, U+FFFD for each fault", hexOfBytes(wide.utf16ToUtf8(units, Lossy.Each))]),
        row(["UTF-8, one U+FFFD for each run of faults", hexOfBytes(wide.utf16ToUtf8(units, Lossy.Run))]),
        row(["UTF-8, nothing for faults", hexOfBytes(wide.utf16ToUtf8(units, Lossy.Skip))]),
        row(["UTF-32", [...wide.utf16ToUtf32(units, Lossy.Each)].map((value) => hex(value, 8)).join(" ")]),
        row(["WTF-8, which keeps each unit", hexOfBytes(wide.utf16ToWtf8(units))]),
    );
}

/** The units of a text in which \uXXXX is a unit, and those of numbers in hexadecimal, or null. */
function unitsOfText(text) {
    const plain = text.replace(/\\u([0-9a-fA-F]{4})/g, (_, digits) => String.fromCharCode(parseInt(digits, 16)));
    return Uint16Array.from({ length: plain.length }, (_, at) => plain.charCodeAt(at));
}
function unitsOfHex(text) {
    const words = text.split(/[\s,]+/).filter(Boolean);
    return words.every((word) => /^(0x|\\u|U\+)?[0-9a-fA-F]{1,4}$/.test(word)) ? Uint16Array.from(words, (word) => parseInt(word.replace(/^(0x|\\u|U\+)/, ""), 16)) : null;
}

/** The text of units, in which a unit that belongs to no character is escaped. */
function escaped(wide, units) {
    return wide.utf16Items(units).map((item) => (item.isFault ? `\\u${hex(item.value, 4)}` : String.fromCodePoint(item.value))).join("");
}

function start(wide) {
    const text = byId("units-text"), numbers = byId("units-hex");
    text.addEventListener("input", () => {
        const units = unitsOfText(text.value);
        numbers.value = hexOfUnits(units);
        show(wide, units);
    });
    numbers.addEventListener("input", () => {
        const units = unitsOfHex(numbers.value);
        numbers.setAttribute("aria-invalid", String(units === null));
        if (units !== null) {
            text.value = escaped(wide, units);
            show(wide, units);
        }
    });
    text.value = "Hi\\uD83D \u{1F600}";
    text.dispatchEvent(new Event("input"));
}

load(Uint8Array.from(atob(MODULE), (it) => it.charCodeAt(0))).then(start, (error) => {
    byId("units-summary").textContent = `This browser can't run the module, which needs 64-bit WebAssembly memory: ${error.message}`;
});
