// The search of the pages: it finds names, first sentences and tasks in SEARCH_INDEX, a list of
// [name, kind, address, summary, further words].
"use strict";

const MOST = 40;
const FEW = 5;
const FILLERS = new Set("a an and any are be by can do for has have how i if in into is it its may of on one or that the to what which with".split(" "));
const box = document.getElementById("search");
const list = document.getElementById("results");
const root = document.body.dataset.root;

// A text whose words have a space on each side.
function spaced(text) {
    return ` ${text.toLowerCase().replace(/[^\p{L}\p{N}_]+/gu, " ")} `;
}

// Whether a text has a word: a short one as a whole, a longer one also in another word.
function has(text, word) {
    return text.includes(word.length < 3 ? ` ${word} ` : word);
}

const entries = SEARCH_INDEX.map(([name, kind, address, summary, more]) => ({
    name, kind, address, summary,
    last: name.toLowerCase().split("::").pop(),
    names: spaced(`${name} ${more}`),
    all: spaced(`${name} ${more} ${kind} ${summary}`),
}));

function wordsOf(query) {
    const words = query.toLowerCase().replace(/\(.*?\)/g, " ").split(/[^\p{L}\p{N}_]+/u).filter(Boolean);
    const telling = words.filter((word) => !FILLERS.has(word));
    return telling.length ? telling : words;
}

// The word without the ending of a plural or a verb, so that "converting" finds "convert".
function stem(word) {
    return word.length > 5 ? word.replace(/(?:ing|ed|es|s)$/, "") : word;
}

// A small number for a good match: an exact name, then tasks, then names, then sentences. Definitions and laws are last.
function rank(entry, words) {
    const later = entry.kind === "definition" || entry.kind.startsWith("law ") ? 5 : 0;
    const isNamed = words.every((word) => has(entry.names, stem(word)));
    if (words.includes(entry.last)) return later + (isNamed ? 0 : 1);
    if (entry.kind === "task") return isNamed ? 2 : 4;
    if (entry.kind === "not available") return isNamed ? 3 : 5;
    if (isNamed) return later + (entry.last.startsWith(words[words.length - 1]) ? 6 : 7);
    return later + (entry.kind === "difference" ? 8 : 9);
}

// The entries that have the most of the words, the best first, and those with one word less if there are few.
function found(query) {
    const words = wordsOf(query);
    const counted = entries.map((entry) => ({
        entry,
        count: words.filter((word) => has(entry.all, stem(word))).length,
        rank: rank(entry, words),
    }));
    const most = Math.max(...counted.map((it) => it.count));
    const isFew = counted.filter((it) => it.count === most).length < FEW;
    const least = Math.max(1, words.length / 2, isFew ? most - 1 : most);
    return counted.filter((it) => it.count >= least)
        .sort((a, b) => b.count - a.count || a.rank - b.rank || a.entry.name.length - b.entry.name.length || (a.entry.name < b.entry.name ? -1 : 1))
        .slice(0, MOST).map((it) => it.entry);
}

function part(kind, text) {
    const made = document.createElement("span");
    made.className = kind;
    made.textContent = text;
    return made;
}

function row(entry) {
    const item = document.createElement("li");
    const link = document.createElement("a");
    link.href = root + entry.address;
    link.append(part("name", entry.name), part("kind", entry.kind), part("summary", entry.summary));
    item.append(link);
    return item;
}

function show() {
    const query = box.value.trim();
    const rows = found(query).map(row);
    list.hidden = !query;
    list.replaceChildren(...(rows.length ? rows : [part("none", "Nothing was found.")]));
}

// Moves between the box and the results by the arrow keys.
function move(event) {
    const stops = [box, ...list.querySelectorAll("a")];
    const at = stops.indexOf(document.activeElement);
    const step = { ArrowDown: 1, ArrowUp: -1 }[event.key];
    if (event.key === "Escape") {
        list.hidden = true;
    } else if (event.key === "Enter" && document.activeElement === box && stops.length > 1) {
        stops[1].click();
    } else if (step && at >= 0 && !list.hidden) {
        event.preventDefault();
        stops[Math.min(Math.max(at + step, 0), stops.length - 1)].focus();
    }
}

box.addEventListener("input", show);
box.addEventListener("focus", show);
document.addEventListener("keydown", (event) => {
    if (event.key === "/" && document.activeElement !== box) {
        event.preventDefault();
        box.focus();
    } else {
        move(event);
    }
});
document.addEventListener("click", (event) => {
    if (!event.target.closest("header") || event.target.closest("#results a")) list.hidden = true;
});

// The list of modules is open where there is space for it beside the page.
document.querySelector(".menu").open = matchMedia("(min-width: 60rem)").matches;

// One button opens or closes all contracts of a page.
const folds = [...document.querySelectorAll("main details")];
const button = document.getElementById("contracts");
button.hidden = !folds.length;
button.addEventListener("click", () => {
    const opens = folds.some((fold) => !fold.open);
    folds.forEach((fold) => { fold.open = opens; });
    button.textContent = opens ? "Close contracts" : "Open contracts";
});
