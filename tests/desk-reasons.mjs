// The page's reasons against the command's: `node tests/desk-reasons.mjs open_panel.mjs REASONS`. On the wrong cards of desk/wrong-cards.txt
// the page says what stands there, and to every refusal of the stored vectors, of cards, seats and questions, what the command says: REASONS
// is what rust/desk/examples/reasons.rs prints.
import { readFileSync } from "node:fs";
import { pathToFileURL } from "node:url";
import { bytesAsText, explain, useSentences } from "../desk/reasons.mjs";

const root = new URL("..", import.meta.url).pathname;
const read = (path) => readFileSync(`${root}/${path}`);
useSentences(read("desk/reasons.txt").toString());
const { load } = await import(pathToFileURL(process.argv[2]));
const library = await load();
const asBytes = (text) => Uint8Array.from(text, (byte) => byte.charCodeAt(0));
const values = (typed) => Uint8Array.from(typed, (byte) => (/[0-9]/.test(byte) ? Number(byte) : 255));

let wrong = 0;
function same(name, said, due) {
    if (said === due) return;
    wrong += 1;
    if (wrong <= 5) console.log(`${name}:\n  ${said}\n  ${due}`);
}

// ---- the table

const unescaped = (text) => {
    const long = text.replace(/\{(\d+)\.\.(\d+):([^}]*)\}/g, (_, from, to, part) => {
        let made = "";
        for (let number = Number(from); number <= Number(to); number += 1) made += part.replaceAll("#", String(number));
        return made;
    });
    return long.replace(/\\(?:([rnt])|x([0-9a-f]{2}))/g, (_, letter, code) => (letter ? { r: "\r", n: "\n", t: "\t" }[letter] : String.fromCharCode(parseInt(code, 16))));
};

function refusal(card, question, seats, nights) {
    try {
        if (nights !== undefined) library.odds(asBytes(card), asBytes(question), values(seats ?? "000"), Math.min(Number(nights), Number.MAX_SAFE_INTEGER), 1);
        else if (question !== undefined) library.ask(asBytes(card), asBytes(question), values("000"));
        else if (seats !== undefined) library.firstMove(asBytes(card), values(seats));
        else library.judge(asBytes(card));
    } catch (refusal) {
        if (refusal.number === undefined) throw refusal;
        return refusal;
    }
    return undefined;
}

const [, base, ...cases] = bytesAsText(read("desk/wrong-cards.txt")).split(/\n== /);
const lines = base.split("\n").slice(1).filter((line) => line);
let table = 0;
for (const one of cases) {
    const [name, ...edits] = one.split("\n");
    const card = lines.map((line) => [line]);
    const given = {};
    const due = { "=": "", ">": "", "?": "" };
    for (const edit of edits.filter((line) => line)) {
        const [, word, text = ""] = /^(\S+)(?: (.*))?$/s.exec(edit);
        const [, number, how] = /^(\d*)(.*)$/.exec(word);
        if (word in due) due[word] = text;
        else if (number === "") given[word] = unescaped(text);
        else if (how === "-") card[number - 1] = [];
        else if (how === "+") card[number - 1].push(unescaped(text));
        else card[number - 1] = [unescaped(text)];
    }
    // the page has no spectators
    if (given.classes !== undefined) continue;
    table += 1;
    const text = card.flat().map((line) => `${line}\n`).join("");
    const refused = refusal(text, given.question, given.seats, given.nights);
    if (!refused) {
        same(name, "taken", "refused");
        continue;
    }
    const said = explain(refused, { card: text, ...given });
    const under = ({ card: text, ...given }[said.of] ?? "").slice(said.from, said.to);
    const encoded = (sentence) => bytesAsText(new TextEncoder().encode(sentence));
    same(name, `${said.number} ${said.place}${under ? ` ${under}` : ""}`, unescaped(due["="]));
    same(name, encoded(said.sentence), due[">"]);
    same(name, encoded(said.hint), due["?"]);
}

// ---- the stored vectors

function* records(path) {
    const bytes = read(`vectors/${path}.cases`);
    let at = 0;
    const piece = () => {
        const length = bytes.readUInt32LE(at);
        at += 4 + length;
        return bytes.subarray(at - length, at);
    };
    // two forms, as vectors/README.md says
    const plain = path === "base" || path === "edges";
    while (at < bytes.length) {
        if (plain) yield [piece()];
        else yield Array.from({ length: bytes[at++] }, piece);
    }
}

const stored = new Map();
const typed = (bytes) => [...bytes].map((value) => (value < 10 ? String(value) : "x")).join("");
function piecesOf(path, number, entry) {
    if (!stored.has(path)) stored.set(path, [...records(path)]);
    const record = stored.get(path)[number];
    const text = bytesAsText(record.at(0));
    if (record.length === 1) {
        const end = text.indexOf("\n");
        const digits = [...(end < 0 ? text : text.slice(0, end))].map((byte) => (/[0-9]/.test(byte) ? byte : "x"));
        return { card: end < 0 ? "" : text.slice(end + 1), seats: digits.join("") };
    }
    // of what is added to a box the page explains the card alone
    const [card, ...rest] = entry === "add" ? [record[3]] : record.slice(1);
    const given = { card: bytesAsText(card) };
    if (entry === "ask" || entry === "odds") Object.assign(given, { question: bytesAsText(rest[0]), seats: typed(rest[1]) });
    if (entry === "odds") given.nights = bytesAsText(rest[2]);
    else if (["panel", "first_move", "spectator"].includes(entry)) given.seats = typed(rest[0]);
    return given;
}

let held = 0;
for (const line of readFileSync(process.argv[3], "utf8").split(/\n(?=[a-z0-9/-]+ \d+ [a-z_]+\t)/)) {
    const [name, refused, span, reason, sentence, hint] = line.replace(/\n$/, "").split("\t");
    const [path, number, entry] = name.split(" ");
    const [code, place] = refused.split(" ").map(Number);
    if ([11, 12, 13, 18, 19].includes(code)) continue;
    held += 1;
    const said = explain({ number: code, place }, piecesOf(path, Number(number), entry));
    same(name, [`${said.from} ${said.to}`, said.name, said.sentence, said.hint].join("\t"), [span, reason, sentence, hint].join("\t"));
}

console.log(`desk: the page's reasons: ${table} wrong cards and ${held} stored refusals, ${wrong} wrong`);
process.exit(wrong === 0 && table >= 90 && held >= 1500 ? 0 : 1);
