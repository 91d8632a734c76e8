// The library as WebAssembly behind two pipes, asked as tests/c/bridge.c says: `node tests/bridge.mjs open_panel.wasm`.
//
// An entry takes where its answer goes, and for each piece where it lies (a number) and its length (a BigInt). One that finds a card takes
// the card's number as a number, and of the part only where it lies. Odds take the steps as a BigInt and the aim as a number, and each row as
// where it lies and how many numbers it has. Mending takes both its rooms so, and of the list's length only where it goes; each of the three
// lies apart from the others while it runs. Adding takes its room, which is the deck, first, and then the card's number and the card.
import { readFileSync, readSync, writeSync } from "node:fs";

const GUARD = 64;
const SPOILT = 256n;
const NUMBER = 8;
const ANSWER = 2 * NUMBER;

const { instance } = await WebAssembly.instantiate(readFileSync(process.argv[2]));
const { memory, __heap_base, ...entries } = instance.exports;
const answerAt = Math.ceil(__heap_base.value / NUMBER) * NUMBER;

// All of so many bytes; nothing at the end of the input.
function take(length) {
    const bytes = Buffer.alloc(length);
    for (let done = 0; done < length; ) {
        const got = readSync(0, bytes, done, length - done, null);
        if (got === 0) process.exit(0);
        done += got;
    }
    return bytes;
}

const takeNumber = () => Number(take(NUMBER).readBigUInt64LE());

function give(bytes) {
    for (let done = 0; done < bytes.length; ) done += writeSync(1, bytes, done);
}

for (let guard = 0; ; guard = guard >= 122 ? 32 : guard + 1) {
    const lengths = Array.from({ length: takeNumber() }, takeNumber);
    const [name, ...pieces] = lengths.map(take);
    const mends = name.toString() === "open_panel_mend";
    if (mends) {
        const [inRoom, all] = [Number(pieces.at(-2).readBigUInt64LE()), pieces.at(-1)];
        pieces.splice(-2, 2, all.subarray(0, inRoom), all.subarray(inRoom, -NUMBER), all.subarray(-NUMBER));
    }
    // what is written: the room, or both rooms and the list's length
    const written = pieces.length - (mends ? 3 : 1);
    let end = answerAt + ANSWER + GUARD;
    const places = pieces.map((piece) => {
        const place = Math.ceil(end / NUMBER) * NUMBER;
        end = place + piece.length + GUARD;
        return place;
    });
    const more = end - memory.buffer.byteLength;
    if (more > 0) memory.grow(Math.ceil(more / 65536));
    const lent = new Uint8Array(memory.buffer, 0, end);
    lent.fill(guard, answerAt);
    pieces.forEach((piece, i) => lent.set(piece, places[i]));
    const before = lent.slice(answerAt);

    const words = pieces.map((piece, i) => [piece.length && places[i], BigInt(piece.length)]);
    if (/^open_panel_box_find/.test(name)) words.splice(-2, 2, [pieces.at(-2).readUInt16LE()], [places.at(-1)]);
    if (name.toString() === "open_panel_odds") {
        const [steps, aim, first, rows] = pieces.slice(3);
        const [inFirst, inBoth] = [first.readBigUInt64LE(), BigInt(rows.length / 4)];
        const rowsAt = places.at(-1);
        words.splice(3, 4, [steps.readBigUInt64LE()], [aim[0]], [rowsAt, inFirst], [rowsAt + 4 * Number(inFirst), inBoth - inFirst]);
    }
    if (mends) words.splice(-1, 1, [places.at(-1)]);
    if (name.toString() === "open_panel_add") words.splice(0, 3, words[2], [pieces[0].readUInt16LE()], words[1]);
    entries[name.toString()](answerAt, ...words.flat());

    const kept = (from, to) => Buffer.compare(lent.subarray(from, to), before.subarray(from - answerAt, to - answerAt)) === 0;
    const rooms = pieces.map((piece, i) => [places[i], places[i] + piece.length]).slice(written);
    const between = [answerAt + ANSWER, ...rooms.flat(), end];
    let spoilt = false;
    for (let i = 0; i < between.length; i += 2) spoilt ||= !kept(between[i], between[i + 1]);
    const answer = new DataView(memory.buffer, answerAt, ANSWER);
    const head = Buffer.alloc(ANSWER);
    head.writeBigUInt64LE(spoilt ? SPOILT : BigInt(answer.getUint8(0)), 0);
    head.writeBigUInt64LE(answer.getBigUint64(NUMBER, true), NUMBER);
    give(Buffer.concat([head, ...rooms.map(([from, to]) => lent.subarray(from, to))]));
}
