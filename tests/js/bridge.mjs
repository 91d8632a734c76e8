// The JavaScript module behind two pipes, asked as tests/c/bridge.c says: `node tests/js/bridge.mjs open_panel.mjs`. The module lends rooms of
// its own, so that a room which is too small is told here, and no byte around a room can be looked at; tests/bridge.mjs does that.
import { readSync, writeSync } from "node:fs";
import { resolve } from "node:path";

const NUMBER = 8;
const ROOM = 10;
const { load, Refusal } = await import(resolve(process.argv[2]));
const panel = await load();

// All of so many bytes; nothing at the end of the input.
function take(length) {
    const bytes = Buffer.alloc(length);
    for (let done = 0; done < length; ) {
        const got = readSync(0, bytes, done, length - done, null);
        if (got === 0) process.exit(0);
        done += got;
    }
    return bytes;
}

const takeNumber = () => Number(take(NUMBER).readBigUInt64LE());

function give(bytes) {
    for (let done = 0; done < bytes.length; ) done += writeSync(1, bytes, done);
}

const eightBytes = (number) => {
    const bytes = Buffer.alloc(NUMBER);
    bytes.writeBigUInt64LE(BigInt(number));
    return bytes;
};

// [number, value] of an answer, which goes into the room
function answered(name, pieces, room) {
    const called = name.replace(/^open_panel_/, "").replace(/_(.)/g, (_, letter) => letter.toUpperCase());
    if (called.startsWith("boxFind")) {
        pieces.push(pieces.pop().readUInt16LE());
        room.fill(0);
    }
    const inRoom = called === "mend" && pieces.pop();
    // a deck that is changed where it stands is the room; the module makes a new one, and lets it grow
    const changes = called === "tidy" || called === "add";
    if (changes) pieces = [room, ...(called === "add" ? [pieces[0].readUInt16LE(), pieces[1]] : [])];
    try {
        const answer = panel[called](...pieces);
        if (answer === undefined) return [0, 0];
        if (typeof answer === "boolean" || typeof answer === "number") return [0, Number(answer)];
        if (called.startsWith("boxFind")) {
            Buffer.concat([answer.inExpansion ? 1 : 0, answer.offset, answer.length].map(eightBytes)).copy(room);
            return [0, 0];
        }
        if (called === "mend") {
            const [deck, list] = [answer.deck, answer.list].map((made) => Buffer.from(made));
            const listAt = Number(inRoom.readBigUInt64LE());
            if (deck.length > listAt) return [ROOM, deck.length];
            if (list.length > room.length - NUMBER - listAt) return [ROOM, list.length];
            deck.copy(room);
            list.copy(room, listAt);
            eightBytes(list.length).copy(room, room.length - NUMBER);
            return [0, deck.length];
        }
        const text = Buffer.from(answer);
        if (text.length > room.length) return [ROOM, text.length];
        text.copy(room);
        if (changes) room.fill(0, text.length);
        return [0, text.length];
    } catch (refusal) {
        if (!(refusal instanceof Refusal)) throw refusal;
        return [refusal.number, refusal.place];
    }
}

for (;;) {
    const lengths = Array.from({ length: takeNumber() }, takeNumber);
    const [name, ...pieces] = lengths.map(take);
    const room = pieces.pop();
    const head = answered(name.toString(), pieces, room).map(eightBytes);
    give(Buffer.concat([...head, room]));
}
