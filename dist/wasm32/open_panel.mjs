// The open panel for JavaScript: open_panel.wasm, which lies beside this file, with bytes and answers carried in and out.
//
//     import { load } from "./open_panel.mjs";
//     const panel = await load();
//     panel.show(card, [0, 0, 1]);    // a text, or a Refusal is thrown
//
// Each function of open_panel.h that answers about bytes is one here, under its name without `open_panel_` (box_find is boxFind). Rooms and
// rows are lent by this module. A card or a question is a string or bytes, seats and classes are bytes or numbers; on a card whose seats share
// a number, that stands behind them. What is handed in stays as it is: `tidy` and `add` give a new deck. It needs nothing else.

const VERSION = "0.13.0";
const NUMBERS = {
    CARD_BYTES: 16384,
    QUESTION_BYTES: 16384,
    SEATS: 16,
    TOP_STATE: 7,
    TOP_CLASS: 7,
    ODDS_ROW: 512,
    ODDS_STEPS: 32,
    CERTAIN: 1000000,
    UNIT: 277200,
    DECK_BYTES: 65535,
    DECK_CARDS: 64,
    LIST_ROOM: 640,
    WRITE_ROOM: 85481,
    REDUCE_ROOM: 392972,
    SHOW_ROOM: 5774,
    WATCH_ROOM: 25,
};
const WORDS = {
    1: "the card is longer than 16384 bytes",
    2: "no mark of a card, or too many digits",
    3: "this cannot stand here, or the card ends early",
    4: "one more than a card may have",
    5: "a state above the card's top state, or a shared number above its highest",
    6: "not the seat or module due, or a group that is not symmetric",
    7: "not a weight, or weights that do not sum to 1",
    8: "not as many seats as the card has, and one byte more if it shares a number",
    9: "a seat above the card's top state, or the shared number above its highest",
    10: "the room is too small",
    11: "a malformed deck, contents and bodies that make none, or nothing to keep",
    12: "no live card has this number, or no card at all is live",
    13: "not one class for each state, or a class above 7",
    14: "the table has more than 512 count vectors, or pairs of one and a shared number",
    15: "more than 32 steps",
    16: "a lent row does not have 512 numbers",
    17: "a decimal for a weight, where 0, 1 or a fraction has to stand",
    18: "a card that cannot be converted, or does not fit into the new deck",
    19: "a live card has this number already, or 64 cards are live",
    21: "the question is longer than 16384 bytes",
    22: "no mark of a question, or too many digits",
    23: "this cannot stand here, or the question ends early",
    24: "one more than a question may have",
    25: "a state above the card's top state, or a shared number above its highest",
    26: "a group that is not of all seats alike, or no exactly-one",
};
const ENTRIES = {
    judge: { answer: "nothing", takes: [["bytes", "card"]] },
    write: { answer: "text", takes: [["bytes", "card"], ["room", "room"]] },
    reduce: { answer: "text", takes: [["bytes", "card"], ["room", "room"]] },
    show: { answer: "text", takes: [["bytes", "card"], ["bytes", "seats"], ["room", "room"]] },
    watch: { answer: "text", takes: [["bytes", "card"], ["bytes", "seats"], ["bytes", "classes"], ["room", "room"]] },
    ask: { answer: "yes", takes: [["bytes", "card"], ["bytes", "question"], ["bytes", "seats"]] },
    first_move: { answer: "number", takes: [["bytes", "card"], ["bytes", "seats"]] },
    odds: { answer: "number", takes: [["bytes", "card"], ["bytes", "question"], ["bytes", "seats"], ["u64", "m"], ["u8", "largest"], ["row", "first"], ["row", "second"]] },
    box_judge: { answer: "nothing", takes: [["bytes", "deck"]] },
    box_find: { answer: "part", takes: [["bytes", "deck"], ["u16", "number"], ["part", "part"]] },
    box_find_with: { answer: "part", takes: [["bytes", "base"], ["bytes", "expansion"], ["u16", "number"], ["part", "part"]] },
    box_write: { answer: "bytes", takes: [["bytes", "contents"], ["bytes", "bodies"], ["room", "room"]] },
    mend: { answer: "mended", takes: [["bytes", "deck"], ["room", "room"], ["room", "list"], ["length", "listed"]] },
    convert: { answer: "bytes", takes: [["bytes", "deck"], ["room", "room"]] },
    tidy: { answer: "bytes", takes: [["changed", "deck"]] },
    add: { answer: "bytes", takes: [["changed", "deck"], ["u16", "number"], ["bytes", "card"]] },
};

/** The version of this module, and of the library that it was made with. */
export const version = VERSION;

/** The header's numbers: limits, rooms, the unit. */
export const numbers = Object.freeze(NUMBERS);

const ANSWER_BYTES = 16;
const PART_BYTES = 24;
const LENGTH_BYTES = 8;
const ROW_NUMBER_BYTES = 4;
const PAGE = 65536;
const ROOM = 10;
const UNKNOWN = "a refusal that this library does not know";

/** A place of a text as people count: line and column, both from 1, in bytes; nothing for one beyond its end. */
export function lineAndColumn(text, place) {
    const bytes = bytesOf("text", text);
    if (place > bytes.length) return undefined;
    const before = bytes.subarray(0, place);
    const line = before.reduce((lines, byte) => lines + (byte === 10), 1);
    return { line, column: place - before.lastIndexOf(10) };
}

/** What a refusal's number means. */
export const words = (number) => WORDS[number] ?? UNKNOWN;

/** Why something is turned down: its number, its place, and its words; line and column where the place is in a text. */
export class Refusal extends Error {
    constructor(number, place, texts = {}) {
        const of = (number >= 2 && number <= 7) || number === 17 ? "card" : number >= 22 && number <= 26 ? "question" : undefined;
        const { line, column } = (of && texts[of] && lineAndColumn(texts[of], place)) ?? {};
        const where = line ? `line ${line}, column ${column} of the ${of}: ` : "";
        super(`${where}${words(number)} (refusal ${number}, ${number === 18 ? "card" : "place"} ${place})`);
        Object.assign(this, { name: "Refusal", number, place, words: words(number), of, line, column });
    }
}

function bytesOf(name, given) {
    if (typeof given === "string") return new TextEncoder().encode(given);
    if (given instanceof Uint8Array) return given;
    if (given instanceof ArrayBuffer) return new Uint8Array(given);
    if (!given || typeof given[Symbol.iterator] !== "function") throw new TypeError(`${name}: a string, bytes or numbers, and not ${given}`);
    const all = [...given];
    for (const byte of all) whole(name, byte, 8);
    return Uint8Array.from(all);
}

// A whole number of so many bits: one that would be cut to another is no number to ask with.
function whole(name, given, bits) {
    const most = bits > 53 ? Number.MAX_SAFE_INTEGER : 2 ** bits - 1;
    if (!Number.isInteger(given) || given < 0 || given > most) throw new RangeError(`${name}: a whole number from 0 to ${most}, and not ${given}`);
    return given;
}

const upTo8 = (place) => Math.ceil(place / 8) * 8;

class Panel {
    #exports;

    constructor(exports) {
        this.#exports = exports;
        for (const [name, entry] of Object.entries(ENTRIES)) {
            const called = name.replace(/_([a-z])/g, (_, letter) => letter.toUpperCase());
            this[called] = (...given) => this.#enter(name, entry, given);
        }
        Object.freeze(this);
    }

    #enter(name, { answer, takes }, given) {
        const { memory, __heap_base } = this.#exports;
        const answerAt = upTo8(__heap_base.value);
        let end = answerAt + ANSWER_BYTES;
        const lend = (bytes) => {
            const place = upTo8(end);
            end = place + bytes;
            return place;
        };
        const texts = {};
        const copied = [];
        const lent = {};
        // a list has its own room, a text its entry's, and a deck one that is always enough
        const roomOf = (of) => NUMBERS[`${(of === "room" ? name : of).toUpperCase()}_ROOM`] ?? NUMBERS.DECK_BYTES;
        const row = NUMBERS[`${name.toUpperCase()}_ROW`];
        const due = takes.filter(([kind]) => !["room", "row", "part", "length"].includes(kind));
        if (given.length !== due.length) throw new TypeError(`${name} takes ${due.map(([, of]) => of).join(", ")}`);
        let next = 0;
        const handed = takes.map(([kind, of]) => {
            switch (kind) {
                case "bytes": {
                    const bytes = bytesOf(of, given[next++]);
                    texts[of] = bytes;
                    const place = lend(bytes.length);
                    copied.push([place, bytes]);
                    return [place, BigInt(bytes.length)];
                }
                case "changed": {
                    // a copy, which is its own room and may grow
                    const bytes = bytesOf(of, given[next++]);
                    lent.room = lend(Math.max(bytes.length, NUMBERS.DECK_BYTES));
                    copied.push([lent.room, bytes]);
                    return [lent.room, BigInt(bytes.length)];
                }
                case "room":
                    lent[of] = lend(roomOf(of));
                    return [lent[of], BigInt(roomOf(of))];
                case "row":
                    return [lend(row * ROW_NUMBER_BYTES), BigInt(row)];
                case "part":
                    lent.part = lend(PART_BYTES);
                    return [lent.part];
                case "length":
                    lent[of] = lend(LENGTH_BYTES);
                    return [lent[of]];
                case "u64":
                    return [BigInt(whole(of, given[next++], 64))];
                default:
                    return [whole(of, given[next++], Number(kind.slice(1)))];
            }
        });
        const more = end - memory.buffer.byteLength;
        if (more > 0) memory.grow(Math.ceil(more / PAGE));
        // grown memory is another buffer
        const bytes = new Uint8Array(memory.buffer);
        for (const [place, from] of copied) bytes.set(from, place);
        const told = new DataView(memory.buffer);
        const answered = () => {
            this.#exports[`open_panel_${name}`](answerAt, ...handed.flat());
            return [told.getUint8(answerAt), Number(told.getBigUint64(answerAt + 8, true))];
        };
        let [number, value] = answered();
        // lent longer at once, a deck that is cut short would be taken; what it grows by is a gap, whatever stands there
        const grows = takes.findIndex(([kind]) => kind === "changed");
        if (number === ROOM && grows >= 0 && value <= NUMBERS.DECK_BYTES) {
            handed[grows][1] = BigInt(value);
            [number, value] = answered();
        }
        if (number !== 0) throw new Refusal(number, value, texts);
        const text = (place, length) => new TextDecoder().decode(bytes.subarray(place, place + length));
        switch (answer) {
            case "text":
                return text(lent.room, value);
            case "bytes":
                return bytes.slice(lent.room, lent.room + value);
            case "mended": {
                const listed = Number(told.getBigUint64(lent.listed, true));
                return { deck: bytes.slice(lent.room, lent.room + value), list: text(lent.list, listed) };
            }
            case "part": {
                const [inExpansion, offset, length] = [0, 8, 16].map((at) => Number(told.getBigUint64(lent.part + at, true)));
                return { inExpansion: inExpansion === 1, offset, length };
            }
            case "yes":
                return value === 1;
            case "nothing":
                return undefined;
            default:
                return value;
        }
    }
}

async function compiled(source) {
    if (source instanceof WebAssembly.Module) return source;
    if (source instanceof ArrayBuffer || ArrayBuffer.isView(source)) return WebAssembly.compile(source);
    const url = new URL(source, import.meta.url);
    if (url.protocol === "file:") {
        // node does not fetch files
        const { readFile } = await import("node:fs/promises");
        return WebAssembly.compile(await readFile(url));
    }
    const response = await fetch(url);
    if (!response.ok) throw new Error(`${url}: ${response.status} ${response.statusText}`);
    return WebAssembly.compile(await response.arrayBuffer());
}

/** The library, from the file beside this one, or from a module, its bytes or its place. */
export async function load(source = "open_panel.wasm") {
    return new Panel((await WebAssembly.instantiate(await compiled(source))).exports);
}
