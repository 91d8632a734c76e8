// The JavaScript module as it is made: answers of each kind, refusals as objects with words, and what it turns down before it asks.
import assert from "node:assert/strict";
import { readFileSync } from "node:fs";

const made = new URL("../../target/library/wasm32/", import.meta.url);
const { load, lineAndColumn, numbers, Refusal, version, words } = await import(new URL("open_panel.mjs", made));
const panel = await load();
const example = (name) => readFileSync(new URL(`../../examples/${name}`, import.meta.url), "utf8");
const card = example("card-a").replace(/^.*\n/, "");
const seats = [0, 0, 1];

const header = readFileSync(new URL("../../include/open_panel.h", import.meta.url), "utf8");
assert.equal(`"${version}"`, header.match(/OPEN_PANEL_VERSION (.*)/)[1]);
assert.equal(numbers.UNIT, Number(header.match(/OPEN_PANEL_UNIT (.*)/)[1]));
const entries = [...header.matchAll(/^open_panel_answer open_panel_([a-z_0-9]*)/gm)].map(([, name]) => name);
const called = entries.map((name) => name.replace(/_(.)/g, (_, letter) => letter.toUpperCase()));
assert.deepEqual(Object.keys(panel).sort(), called.sort());

// the types name the same functions
const types = readFileSync(new URL("open_panel.d.mts", made), "utf8");
const methods = types.match(/interface Panel \{([^}]*)\}/)[1].matchAll(/^ *([a-zA-Z]*)\(/gm);
assert.deepEqual([...methods].map(([, name]) => name).sort(), called.sort());

// every refusal of the header has words, and no two numbers that are none have others
const refusals = [...header.matchAll(/^ *OPEN_PANEL_[A-Z_]* = ([0-9]+)/gm)].map(([, number]) => Number(number)).filter(Boolean);
assert.ok(refusals.length >= 25);
for (const number of refusals) assert.notEqual(words(number), words(255), `words of ${number}`);

assert.equal(panel.judge(card), undefined);
assert.equal(panel.show(card, seats), example("card-a.panel"));
assert.equal(panel.show(new TextEncoder().encode(card), Uint8Array.from(seats)), example("card-a.panel"));
assert.equal(panel.write(panel.write(card)), panel.write(card));
assert.match(panel.reduce(card), /^probabilistic\nmodule generic_process/);
assert.equal(panel.ask(card, "(s1=0 | s2=0 | s3=0)", seats), true);
assert.equal(panel.ask(card, "(s1=2 | s2=2 | s3=2)", seats), false);
assert.equal(panel.watch(card, seats, [0, 1, 1]), "classes 2 1 0 0 0 0 0 0\n");
assert.equal(panel.firstMove(card, seats), 1);
assert.equal(panel.firstMove(card, [0, 1, 2]), 0);
assert.equal(panel.odds(card, "(s1=0 | s2=0 | s3=0)", seats, 5, 1), numbers.CERTAIN);
refused(() => panel.odds(card, "(s1=0 | s2=0 | s3=0)", seats, numbers.ODDS_STEPS + 1, 1), { number: 15, place: 0 });
// a number that the seats share stands behind them
const night = "nondeterministic global g : [0..1] init 1; module process1 s1 : [0..1] init 0; [] s1=0 & (g=1) -> 1:(s1'=1) & (g'=0); endmodule";
assert.equal(panel.show(night, [0, 1]), "nondeterministic\nseats 1 enabled 1\ncounts 1 0\nshared 1\nchoice 1\nmove 0 1 277200 0\n");
assert.equal(panel.firstMove(night, [0, 0]), 0);
assert.equal(panel.ask(night, "(g=0) | (s1=0)", [1, 0]), true);
assert.equal(panel.watch(night, [1, 0], [2, 3]), panel.watch(night, [1, 1], [2, 3]));
assert.equal(panel.odds(night, "(g=0)", [0, 1], 1, 1), numbers.CERTAIN);
refused(() => panel.show(night, [0]), { number: 8, place: 0 });
refused(() => panel.show(night, [0, 2]), { number: 9, place: 1, of: undefined, words: words(9) });
const entry = [5, 0, 0, 0, 4, 0, 1, 0];
const [base, expansion] = ["base", "more"].map((body) => panel.boxWrite(entry, body));
assert.ok(base instanceof Uint8Array && base.length === 13);
assert.equal(panel.boxJudge(base), undefined);
assert.deepEqual(panel.boxFind(base, 5), { inExpansion: false, offset: 9, length: 4 });
assert.deepEqual(panel.boxFindWith(base, expansion, 5), { inExpansion: true, offset: 9, length: 4 });
// what it answered stays when it is asked again
assert.equal(new TextDecoder().decode(base.subarray(9)), "base");
// a deck of which the second of two withdrawn cards has a flag that is none
const damaged = [2, 5, 0, 17, 0, 2, 0, 0, 0, 6, 0, 19, 0, 1, 0, 7, 0, 97, 98, 99];
const mended = panel.mend(damaged);
assert.deepEqual(mended, { deck: Uint8Array.of(1, 5, 0, 9, 0, 2, 0, 0, 0, 97, 98), list: "kept\ndropped 1\n" });
assert.deepEqual(panel.mend(mended.deck), { deck: mended.deck, list: "kept\n" });
const bodies = new Uint8Array(numbers.DECK_BYTES - 1 - 8 * numbers.DECK_CARDS).fill(7);
const full = Array.from({ length: numbers.DECK_CARDS }, (_, i) => [i, 0, 0, 0, ...(i === 0 ? [bodies.length & 255, bodies.length >> 8] : [0, 0]), 0, 0]).flat();
const longest = panel.boxWrite(full, bodies);
assert.equal(longest.length, numbers.DECK_BYTES);
assert.deepEqual(panel.mend(longest), { deck: longest, list: "kept\n".repeat(numbers.DECK_CARDS) });
// a decimal is no weight, and a box from before is converted; what has none stays as it stands, and what is withdrawn is not read
const old = card.replaceAll("1/4", "0.25").replaceAll("3/4", "0.75");
const twoOf = (first, second) => panel.boxWrite([first, second].flatMap((body, i) => [5 + i, 0, 0, 0, body.length & 255, body.length >> 8, 1 - i, 0]), first + second);
const converted = panel.convert(twoOf(old, old));
assert.deepEqual(converted, twoOf(card, old));
assert.deepEqual(panel.convert(converted), converted);
assert.deepEqual(panel.convert(longest), longest);
refused(() => panel.judge(old), { number: 17, place: old.indexOf("0.25"), of: "card", line: 5, column: 38, words: words(17) });
refused(() => panel.show(old, seats), { number: 17, of: "card", line: 5, column: 38 });
refused(() => panel.convert(base), {
    number: 18,
    place: 5,
    of: undefined,
    line: undefined,
    message: "a card that cannot be converted, or does not fit into the new deck (refusal 18, card 5)",
});
refused(() => panel.convert([]), { number: 11, place: 0 });
assert.throws(() => panel.convert(), TypeError);
// withdrawn cards and gaps go, and a card is added, in a new deck: what was handed in stays
const withGaps = Uint8Array.of(3, 5, 0, 26, 0, 1, 0, 0, 0, 6, 0, 28, 0, 2, 0, 1, 0, 7, 0, 31, 0, 1, 0, 0, 0, 45, 97, 45, 98, 99, 45, 100, 45);
const asItWas = withGaps.slice();
const tidied = panel.tidy(withGaps);
assert.deepEqual(tidied, Uint8Array.of(1, 6, 0, 9, 0, 2, 0, 1, 0, 98, 99));
assert.deepEqual(panel.tidy(tidied), tidied);
const cardBytes = new TextEncoder().encode(card);
for (const [number, offset] of [[5, 17], [7, 19]]) {
    const deck = panel.add(withGaps, number, card);
    assert.equal(deck.length, 17 + 2 + cardBytes.length);
    const at = panel.boxFind(deck, number);
    assert.deepEqual(at, { inExpansion: false, offset, length: cardBytes.length });
    assert.deepEqual(deck.slice(at.offset, at.offset + at.length), cardBytes);
    assert.deepEqual(panel.add(tidied, number, cardBytes), deck);
    assert.deepEqual(panel.tidy(deck), deck);
}
assert.deepEqual(withGaps, asItWas);
// up to the longest deck
const filling = new Uint8Array(numbers.DECK_BYTES - 17 - cardBytes.length).fill(7);
const filled = panel.boxWrite([6, 0, 0, 0, filling.length & 255, filling.length >> 8, 1, 0], filling);
assert.equal(panel.add(filled, 7, card).length, numbers.DECK_BYTES);
refused(() => panel.add(filled, 7, `${card}\n`), { number: 10, place: numbers.DECK_BYTES + 1, of: undefined, line: undefined });
refused(() => panel.add(withGaps, 6, card), { number: 19, place: 9, of: undefined, line: undefined, words: words(19) });
refused(() => panel.add(tidied, 6, card), { number: 19, place: 1 });
refused(() => panel.add(tidied, 6, old), { number: 17, place: old.indexOf("0.25"), of: "card", line: 5, column: 38 });
refused(() => panel.add(tidied, 7, ""), { number: 3, place: 0, line: 1, column: 1 });
// a body that ends past its deck is not lent the bytes behind it
refused(() => panel.add(tidied.subarray(0, 10), 7, card), { number: 11, place: 5 });
refused(() => panel.tidy(longest), { number: 12, place: 0 });
refused(() => panel.add(longest, 7, ""), { number: 12, place: 0 });
refused(() => panel.tidy([]), { number: 11, place: 0 });
refused(() => panel.add(new Uint8Array(numbers.DECK_BYTES + 1), 7, card), { number: 11, place: 0 });
assert.throws(() => panel.add(tidied, 65536, card), RangeError);
assert.throws(() => panel.add(tidied, card), TypeError);
assert.throws(() => panel.tidy(), TypeError);
// a card of more bytes than the memory has to begin with is copied whole, and refused
assert.throws(() => panel.judge(" ".repeat(3_000_000)), { number: 1, place: 0 });

// refused WHAT CALL FIELDS
function refused(call, fields) {
    assert.throws(call, (thrown) => {
        assert.ok(thrown instanceof Refusal && thrown instanceof Error);
        for (const [name, value] of Object.entries(fields)) assert.deepEqual(thrown[name], value, name);
        return true;
    });
}
refused(() => panel.judge(card.replace("0..2", "0..9")), {
    number: 4,
    place: 39,
    of: "card",
    line: 3,
    column: 10,
    words: "one more than a card may have",
    message: "line 3, column 10 of the card: one more than a card may have (refusal 4, place 39)",
});
refused(() => panel.ask(card, "(s1=0)\n& ?", seats), { number: 22, place: 9, of: "question", line: 2, column: 3 });
refused(() => panel.show(card, [0, 9, 0]), { number: 9, place: 1, of: undefined, line: undefined, words: words(9) });
refused(() => panel.watch(card, seats, []), { number: 13, place: 0 });
refused(() => panel.boxFind(base, 6), { number: 12, place: 0, message: "no live card has this number, or no card at all is live (refusal 12, place 0)" });
refused(() => panel.mend([]), { number: 11, place: 0 });
refused(() => panel.mend(base), { number: 11, place: 0 });
assert.throws(() => panel.mend(), TypeError);
refused(() => panel.judge(""), { number: 3, place: 0, line: 1, column: 1 });

assert.throws(() => panel.show(card, [0, 0, 256]), RangeError);
assert.throws(() => panel.show(card, [0, 0, 0.5]), RangeError);
assert.throws(() => panel.boxFind(base, 65536), RangeError);
assert.throws(() => panel.show(card), TypeError);
assert.throws(() => panel.show(card, 3), TypeError);
assert.deepEqual(lineAndColumn("ab\ncd", 4), { line: 2, column: 2 });
assert.deepEqual(lineAndColumn("ab\ncd", 2), { line: 1, column: 3 });
assert.equal(lineAndColumn("ab", 3), undefined);

const wasm = readFileSync(new URL("open_panel.wasm", made));
for (const source of [wasm, await WebAssembly.compile(wasm), new URL("open_panel.wasm", made)]) assert.equal((await load(source)).firstMove(card, seats), 1);
await assert.rejects(load("no_such.wasm"));
console.log(`open_panel.mjs: ${called.length} functions, every answer as expected`);
