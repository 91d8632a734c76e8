import { load } from "./open_panel.mjs";
import { bytesAsText, explain, fraction, ODDS_NIGHTS, seatsLine, UNIT, useSentences, walkCard } from "./reasons.mjs";

// The page: what is typed and clicked goes to the library, and what it answers is shown.

const $ = (id) => document.getElementById(id);
const encode = (text) => new TextEncoder().encode(text);
const decode = (bytes) => new TextDecoder("utf-8", { ignoreBOM: true }).decode(bytes);
const plainText = (id) => $(id).textContent.replace(/^\n/, "");
const repeated = (count, make) => Array.from({ length: count }, (_, i) => make(i));

/** An element with attributes and what stands in it. */
function element(name, attributes = {}, ...within) {
    const made = document.createElement(name);
    for (const [key, value] of Object.entries(attributes)) made.setAttribute(key, value);
    made.append(...within);
    return made;
}

/** A sentence with its `marks` as code. */
const spoken = (sentence) => sentence.split("`").map((part, i) => (i % 2 ? element("code", {}, part) : part));

/** Parts of a whole in percent, rounded to hundredths. */
function percent(parts, whole) {
    const rounded = Math.floor((parts * 20000 + whole) / (2 * whole));
    if (rounded === 0 && parts > 0) return "<0.01%";
    if (rounded === 10000 && parts < whole) return ">99.99%";
    return `${String((rounded / 100).toFixed(2)).replace(/\.?0+$/, "")}%`;
}

/** A text field with the place of a refusal underlined. */
class Editor {
    constructor(id) {
        this.field = $(id);
        this.frame = $(`${id}-editor`);
        this.under = this.frame.querySelector(".under");
        this.numbers = this.frame.querySelector(".numbers");
        this.field.addEventListener("scroll", () => this.scrolled());
        new ResizeObserver(() => this.scrolled()).observe(this.field);
    }

    get text() {
        return this.field.value;
    }

    /** Puts a text in, so that it can be taken back like typing. */
    put(text, from = 0, to = this.text.length) {
        this.field.focus();
        this.field.setSelectionRange(from, to);
        if (!document.execCommand("insertText", false, text)) this.field.setRangeText(text, from, to, "end");
    }

    /** Underlines characters from and to a place; nothing without one. */
    mark(place) {
        this.place = place;
        this.under.replaceChildren(this.text);
        if (place) {
            const { from, to } = place;
            const mark = element("mark", {}, this.text.slice(from, to));
            if (from === to || this.text.slice(from, to) === "\n") mark.className = "end";
            this.under.replaceChildren(this.text.slice(0, from), mark, this.text.slice(to));
        }
        // a last line that is empty has no height otherwise
        this.under.append("\n ");
        this.frame.classList.toggle("refused", place !== undefined);
        this.field.setAttribute("aria-invalid", String(place !== undefined));
        if (this.numbers) {
            const here = place && this.text.slice(0, place.from).split("\n").length;
            const lines = repeated(this.text.split("\n").length, (i) => element("span", i + 1 === here ? { class: "here" } : {}, `${i + 1}\n`));
            this.numbers.replaceChildren(...lines);
        }
        this.scrolled();
    }

    scrolled() {
        for (const other of [this.under, this.numbers]) if (other) other.scrollTop = this.field.scrollTop;
        this.under.scrollLeft = this.field.scrollLeft;
        // scroll bars take room from the field alone
        this.under.style.width = `${this.field.clientWidth}px`;
        this.under.style.height = `${this.field.clientHeight}px`;
    }

    show() {
        this.field.focus();
        if (this.place) this.field.setSelectionRange(this.place.from, Math.max(this.place.to, this.place.from));
    }
}

useSentences(plainText("sentences"));
const library = await load(Uint8Array.from(atob(plainText("library").replace(/\s/g, "")), (byte) => byte.charCodeAt(0)));
const [cardEditor, questionEditor] = [new Editor("card"), new Editor("question")];

/** What is shown: the seats and the number that they share, the last card that was taken, whether the editor has another by now, its panel, and so on. */
const now = { seats: [], shared: undefined, card: undefined, stale: false, panel: undefined, choice: undefined, text: undefined, name: undefined };

/** The seats as the library is handed them: with the number that they share behind them, where the card has one. */
const seating = () => Uint8Array.from(now.shared === undefined ? now.seats : [...now.seats, now.shared]);
const seatingTyped = () => seating().join("");

/** What an entry answers, or its refusal. */
function tried(entry) {
    try {
        return { answer: entry() };
    } catch (refusal) {
        if (refusal.number === undefined) throw refusal;
        return { refusal };
    }
}

// ---- the card

/** The editor's text: the card behind a line of seats, if there is one. */
function typed() {
    const bytes = encode(cardEditor.text);
    const line = seatsLine(bytesAsText(bytes));
    const seats = line > 0 ? bytesAsText(bytes.subarray(0, line)).replace(/\n$/, "") : undefined;
    return { bytes, line, seats, card: bytes.subarray(line) };
}

const values = (digits) => Uint8Array.from(digits, (digit) => (/[0-9]/.test(digit) ? Number(digit) : 255));

let saying;
/** Says something in a live region, once the typing stops. */
function say(region, delay, ...what) {
    const words = () => $(region).replaceChildren(...what);
    clearTimeout(saying?.[region]);
    saying = { ...saying, [region]: setTimeout(words, delay) };
}

/** A refusal in words: where, what, and a hint. */
function refusalSaid({ number, place, sentence, hint }, where) {
    const said = [element("p", {}, element("span", { class: "wrong" }, where, ...spoken(sentence), "."))];
    if (hint) said.push(element("p", {}, "Hint: ", ...spoken(hint), /[.?]$/.test(hint) ? "" : "."));
    said.push(element("p", { class: "quiet" }, `refused ${number} ${place}`));
    return said;
}

/** Where a refusal is among the characters of an editor, by the bytes of its text. */
function placeIn(bytes, from, to) {
    const start = decode(bytes.subarray(0, from)).length;
    return { from: start, to: start + decode(bytes.subarray(from, to)).length };
}

function lineAndColumn(text, at) {
    const before = text.slice(0, at).split("\n");
    return `Line ${before.length}, column ${[...before.at(-1)].length + 1}: `;
}

const count = (many, one) => `${many} ${one}${many === 1 ? "" : "s"}`;

function readCard(delay = 250) {
    const { bytes, line, seats, card } = typed();
    const judged = tried(() => library.judge(card));
    let refused = judged.refusal;
    if (!refused) {
        const text = bytesAsText(card);
        const walk = walkCard(text);
        const read = {
            bytes: card, text, walk, seats: walk.modules.length, top: walk.top.value, begins: walk.states[0][0].value,
            sharedTop: walk.sharedTop?.value, sharedBegins: walk.values[0]?.[0].value,
        };
        if (seats !== undefined) refused = tried(() => library.firstMove(card, values(seats))).refusal;
        if (!refused) {
            now.card = read;
            const digits = seats === undefined ? undefined : [...seats].map(Number);
            const [given, shared] = digits ? [digits, digits.at(-1)] : [now.seats, now.shared];
            now.seats = repeated(read.seats, (i) => (given[i] <= read.top ? given[i] : read.begins));
            // nothing is below what there is not
            now.shared = shared <= read.sharedTop ? shared : read.sharedBegins;
        }
    }
    if (refused) {
        const said = explain(refused, { card: bytesAsText(card), seats });
        const offset = said.of === "card" ? line : 0;
        const place = placeIn(bytes, said.from + offset, said.to + offset);
        cardEditor.mark(place);
        say("card-says", delay, ...refusalSaid(said, lineAndColumn(cardEditor.text, place.from)));
    } else {
        cardEditor.mark();
        const { walk, top, sharedTop } = now.card;
        const roles = top === 0 ? "role 0" : `roles 0 to ${top}`;
        const shared = sharedTop === undefined ? [] : [`g up to ${sharedTop}`];
        const words = [walk.nondeterministic ? "nondeterministic" : "probabilistic", count(now.card.seats, "seat"), roles, ...shared, count(walk.statements.length, "statement")];
        say("card-says", delay, element("span", { class: "good" }, "Taken: "), words.join(", "), ".");
    }
    $("go").hidden = !refused;
    for (const id of ["layout", "reduced"]) $(id).disabled = Boolean(refused);
    for (const id of ["shuffle", "begin", "put"]) $(id).disabled = !now.card;
    // while one types, the last card that was taken stays on the table
    now.stale = Boolean(refused && now.card);
    for (const note of document.querySelectorAll(".stale")) note.hidden = !now.stale;
    if (now.card) setRoles();
    if (refused || now.text) showText(refused ? undefined : now.text);
    $("shuffled").replaceChildren();
    showSeats();
    showPanel();
    readQuestion(delay);
}

/** The canonical layout or the reduced text, or neither. */
function showText(kind) {
    now.text = kind;
    $("text").hidden = !kind;
    $("layout").setAttribute("aria-expanded", String(kind === "write"));
    $("reduced").setAttribute("aria-expanded", String(kind === "reduce"));
    if (!kind) return;
    $("text-heading").textContent = kind === "write" ? "Canonical layout (comments do not stand in it)" : "Reduced text: counters in place of seats";
    $("text-bytes").textContent = library[kind](now.card.bytes);
    $("use").hidden = kind !== "write";
    $("copied").textContent = "";
}

// ---- the seats

function setSeats(seats, shared = now.shared) {
    [now.seats, now.shared] = [seats, shared];
    const { line } = typed();
    if (line > 0 && !now.stale) {
        const end = cardEditor.text.indexOf("\n");
        cardEditor.field.setRangeText(seatingTyped(), 0, end < 0 ? cardEditor.text.length : end, "preserve");
        cardEditor.mark();
    }
    $("shuffled").replaceChildren();
    showSeats();
    showPanel();
    readQuestion(0);
}

function showSeats() {
    const seats = now.card ? now.seats : [];
    const focused = [...$("seats").children].indexOf(document.activeElement);
    const next = (is, top, { shiftKey }) => (is + (shiftKey ? top : 1)) % (top + 1);
    const buttons = seats.map((role, i) => {
        const button = element("button", { type: "button", class: "seat", "aria-label": `Seat ${i + 1}: role ${role}` },
            element("b", { class: `role-${role}` }, String(role)), `seat ${i + 1}`);
        button.addEventListener("click", (event) => setSeats(now.seats.map((other, j) => (j === i ? next(role, now.card.top, event) : other))));
        return button;
    });
    if (now.card && now.shared !== undefined) {
        const button = element("button", { type: "button", class: "seat shared", "aria-label": `The number g that all seats share: ${now.shared}` }, element("b", {}, String(now.shared)), "g");
        button.addEventListener("click", (event) => setSeats(now.seats, next(now.shared, now.card.sharedTop, event)));
        buttons.push(button);
    }
    $("seats").replaceChildren(...buttons);
    if (focused >= 0) $("seats").children[focused]?.focus();
}

/** Another order of the same seats, if there is one. */
function shuffled(seats) {
    for (let tries = 0; tries < 100; tries += 1) {
        const other = [...seats];
        for (let i = other.length - 1; i > 0; i -= 1) {
            const j = Math.floor(Math.random() * (i + 1));
            [other[i], other[j]] = [other[j], other[i]];
        }
        if (other.join("") !== seats.join("")) return other;
    }
    return undefined;
}

function shuffle() {
    const [before, panel] = [now.seats, now.panel];
    const other = shuffled(before);
    if (!other) {
        $("shuffled").textContent = `All seats are in role ${before[0]}: ${before.join("")} has no other order.`;
        return;
    }
    setSeats(other);
    const [was, is] = [encode(panel), encode(now.panel)];
    const changed = repeated(Math.max(was.length, is.length), (i) => was[i] !== is[i]).filter((differs) => differs).length;
    const result = changed === 0
        ? element("span", { class: "good" }, `all ${is.length} bytes of the panel are the same.`)
        : element("span", { class: "wrong" }, `${count(changed, "byte")} of the panel changed, which must not be.`);
    $("shuffled").replaceChildren(`${before.join("")} became ${other.join("")}: `, result);
}

// ---- the panel

/** A panel's lines as what they say: the moves of each choice, with what the shared number is after them; of a probabilistic card there is one, of no statement. */
function parsed(panel) {
    const [mode, ...lines] = panel.trimEnd().split("\n").map((line) => line.split(" "));
    const made = { mode: mode[0], choices: [] };
    for (const [word, ...rest] of lines) {
        const numbers = rest.filter((part) => part !== "enabled").map(Number);
        if (word === "seats") [made.seats, made.enabled] = numbers;
        else if (word === "counts") made.counts = numbers;
        else if (word === "shared") [made.shared] = numbers;
        else if (word === "choice") made.choices.push({ statement: numbers[0], moves: [] });
        else {
            if (made.choices.length === 0) made.choices.push({ moves: [] });
            const [from, to] = word === "move" ? numbers.splice(0, 2) : [];
            const [weight, shared] = numbers;
            made.choices.at(-1).moves.push({ from, to, weight, before: made.shared, shared });
        }
    }
    made.whole = made.mode === "probabilistic" ? made.enabled * UNIT : UNIT;
    return made;
}

function showPanel() {
    now.panel = now.card && library.show(now.card.bytes, seating());
    $("panel").hidden = !now.panel;
    $("no-panel").hidden = Boolean(now.panel);
    if (!now.panel) return;
    $("bytes").textContent = now.panel;
    $("length").textContent = `${now.panel.length} bytes. Weights are in parts of ${UNIT.toLocaleString("en")}.`;
    draw(parsed(now.panel));
}

const chip = (role) => element("span", { class: `chip role-${role}` }, String(role));

function draw(panel) {
    const stacks = panel.counts.map((many, role) => element("li", {},
        element("div", { class: many ? "stack" : "stack none", "aria-hidden": "true" }, ...repeated(many, () => element("i", { class: `role-${role}` }))),
        element("span", {}, chip(role)),
        element("span", {}, element("b", {}, String(many)), ` in role ${role}`)));
    const stuck = library.firstMove(now.card.bytes, seating()) === 0;
    const pairs = panel.mode === "probabilistic" ? `${count(panel.enabled, "pair")} of a seat and a statement can move` : `${count(panel.enabled, "statement")} can be taken`;
    const parts = [
        element("h3", {}, `${count(panel.seats, "seat")}, ${panel.mode}${panel.shared === undefined ? "" : `, g is ${panel.shared}`}`),
        element("ul", { class: "stacks", "aria-label": "How many seats are in each role" }, ...stacks),
        element("h3", {}, stuck ? "Nobody can move" : "What may happen next"),
        element("p", { class: "quiet" }, stuck ? "One step is left, which changes nothing." : `${pairs}.`),
    ];
    const chosen = panel.choices.find((choice) => choice.statement === now.choice) ?? panel.choices[0];
    if (panel.mode === "nondeterministic" && !stuck) parts.push(tabs(panel, chosen));
    const moves = element("ul", { class: "moves", id: "moves" }, ...chosen.moves.map((move) => moveDrawn(move, panel.whole)));
    if (panel.mode === "nondeterministic" && !stuck) {
        const [from, to] = now.card.walk.statements[chosen.statement - 1];
        const text = now.card.text.slice(from, to).replace(/\s+/g, " ");
        parts.push(element("div", { role: "tabpanel", id: "choice", "aria-labelledby": `choice-${chosen.statement}` }, element("p", { class: "statement" }, element("code", {}, text)), moves));
    } else parts.push(moves);
    const focused = document.activeElement?.id;
    $("drawn").replaceChildren(...parts);
    if (focused?.startsWith("choice-")) $(focused)?.focus();
}

/** A tab for each statement that can be taken. */
function tabs(panel, chosen) {
    const all = panel.choices.map(({ statement }) => {
        const tab = element("button", { type: "button", role: "tab", id: `choice-${statement}`, "aria-selected": String(statement === chosen.statement), "aria-controls": "choice" }, `Choice ${statement}`);
        tab.addEventListener("click", () => {
            now.choice = statement;
            draw(panel);
        });
        return tab;
    });
    all.forEach((tab, i) => tab.addEventListener("keydown", ({ key }) => {
        const step = { ArrowRight: 1, ArrowLeft: all.length - 1 }[key];
        if (!step) return;
        const other = all[(i + step) % all.length];
        other.focus();
        other.click();
    }));
    return element("div", { class: "tabs", role: "tablist", "aria-label": "Choices of the players" }, ...all);
}

function moveDrawn({ from, to, weight, before, shared }, whole) {
    const sets = shared !== before;
    const what = from === undefined ? [element("span", {}, sets ? "no seat" : "no change")] : [chip(from), " → ", chip(to)];
    if (sets) what.push(element("span", { class: "after" }, `g ${before} → ${shared}`));
    const bar = element("span");
    bar.style.width = `${(100 * weight) / whole}%`;
    const seat = from === undefined ? (sets ? "no seat moves" : "no change") : `from role ${from} to role ${to}`;
    const label = sets ? `${seat}, g becomes ${shared}` : seat;
    return element("li", { "aria-label": `${label}: ${fraction(weight, whole)}, ${percent(weight, whole)}` },
        element("span", {}, ...what),
        element("span", { class: "track", "aria-hidden": "true" }, bar),
        element("span", { class: "chance" }, element("b", {}, fraction(weight, whole)), ` · ${percent(weight, whole)} `, element("span", { class: "quiet" }, `· ${weight.toLocaleString("en")} parts`)));
}

// ---- the question

function setRoles() {
    const fill = (id, many) => {
        if ($(id).options.length === many) return;
        const chosen = $(id).value;
        $(id).replaceChildren(...repeated(many, (one) => element("option", { value: String(one) }, String(one))));
        if (Number(chosen) < many) $(id).value = chosen || "0";
    };
    fill("role", now.card.top + 1);
    fill("value", 1 + (now.card.sharedTop ?? 0));
    $("ask-shared").hidden = now.card.sharedTop === undefined;
}

/** A question of one kind about a role, written out for so many seats. */
function written(kind, role, seats) {
    const literals = (relation, sign) => `(${repeated(seats, (i) => `s${i + 1}${relation}${role}`).join(sign)})`;
    switch (kind) {
        case "all":
            return literals("=", " & ");
        case "some":
            return literals("=", " | ");
        case "none":
            return literals("!=", " & ");
        case "other":
            return literals("!=", " | ");
        default: {
            const terms = repeated(seats, (i) => `(${repeated(seats, (j) => `s${j + 1}${i === j ? "=" : "!="}${role}`).join(" & ")})`);
            return seats === 1 ? terms[0] : `(${terms.join(" | ")})`;
        }
    }
}

function readQuestion(delay = 250) {
    const bytes = encode(questionEditor.text);
    showOdds();
    if (!now.card || questionEditor.text.trim() === "") {
        questionEditor.mark();
        say("question-says", delay, ...(now.card ? [element("span", { class: "quiet" }, "A question gets yes or no at the seats that are set.")] : []));
        return;
    }
    const { answer, refusal } = tried(() => library.ask(now.card.bytes, bytes, seating()));
    if (refusal) {
        const said = explain(refusal, { card: now.card.text, question: bytesAsText(bytes), seats: seatingTyped() });
        const place = placeIn(bytes, said.from, said.to);
        questionEditor.mark(place);
        say("question-says", delay, ...refusalSaid(said, lineAndColumn(questionEditor.text, place.from)));
    } else {
        questionEditor.mark();
        const shared = now.shared === undefined ? "" : `, g ${now.shared}`;
        say("question-says", delay, element("span", { class: "answer" }, answer ? "yes" : "no"), ` at ${now.seats.join("")}${shared}`);
    }
}

// ---- its odds

const CERTAIN = 1000000;
const KINDS = [["largest", 1], ["smallest", 0]];

/** An element of a drawing. */
function svg(name, attributes, ...within) {
    const made = document.createElementNS("http://www.w3.org/2000/svg", name);
    for (const [key, value] of Object.entries(attributes)) made.setAttribute(key, value);
    made.append(...within);
    return made;
}

const inMillionths = (chance) => (chance / CERTAIN).toFixed(6);

/**
 * The odds of the question, largest and smallest on a nondeterministic card: for each a list from night 0 on, and what reckons those further on.
 * Nothing where the question is refused.
 */
function oddsOf(question) {
    const { bytes, text, walk } = now.card;
    const seats = seating();
    const kinds = walk.nondeterministic ? KINDS : [["chance", 1]];
    const { answer, refusal } = tried(() => kinds.map(([name, largest]) => {
        const at = (night) => library.odds(bytes, question, seats, night, largest);
        return { name, at, chances: [at(0)] };
    }));
    if (!refusal || refusal.number > 20) return { curves: answer };
    return { said: explain(refusal, { card: text }) };
}

let reckoning;
function showOdds() {
    clearTimeout(reckoning);
    reckoning = setTimeout(() => {
        const { curves, said } = now.card && questionEditor.text.trim() !== "" ? oddsOf(encode(questionEditor.text)) : {};
        $("odds").hidden = !curves && !said;
        for (const id of ["odds-help", "odds-nights", "curve", "odds-all"]) $(id).hidden = !curves;
        now.curves = curves;
        $("odds").dataset.asked = `${seatingTyped()} ${questionEditor.text}`;
        if (said) $("odds-says").replaceChildren(...refusalSaid(said, ""));
        if (curves) drawOdds();
    }, 150);
}

function drawOdds() {
    const nights = Number($("nights").value);
    $("nights-shown").textContent = String(nights);
    if (!now.curves) return;
    for (const { chances, at } of now.curves) while (chances.length <= nights) chances.push(at(chances.length));
    const two = now.curves.length > 1;
    $("odds-help").textContent = `The chance that the question has come true by each night, from the seats that are set${two ? ": the largest, if every choice is made to bring it about, and the smallest, if every choice is made against it" : ""}.`;
    const told = now.curves.map(({ name, chances }) => `${name} ${inMillionths(chances[nights])} (${percent(chances[nights], CERTAIN)})`);
    const within = `Within ${count(nights, "night")}: `;
    $("curve").replaceChildren(curve(now.curves.map(({ name, chances }) => ({ name, chances: chances.slice(0, nights + 1) })), `From night 0 to ${nights}. ${within}${told.join(", ")}.`));
    const keys = now.curves.flatMap(({ name }, i) => [i ? ", " : "", ...(two ? [key(name)] : []), told[i]]);
    const already = now.curves[0].chances[0] === CERTAIN ? ["The question holds already, which counts from night 0 on. "] : [];
    $("odds-says").replaceChildren(element("p", {}, ...already, within, ...keys, "."));
    const head = element("tr", {}, element("th", { scope: "col" }, "night"), ...now.curves.map(({ name }) => element("th", { scope: "col" }, name)));
    const rows = repeated(nights + 1, (night) => element("tr", {}, element("th", { scope: "row" }, String(night)), ...now.curves.map(({ chances }) => element("td", {}, `${inMillionths(chances[night])} · ${percent(chances[night], CERTAIN)}`))));
    $("odds-table").replaceChildren(element("caption", {}, "In millionths, rounded down at each night: never too high, and too low by a millionth for each night at most. Percent is rounded to hundredths."), head, ...rows);
}

/** A curve's mark at a night: a disc for the largest, and for the smallest an open diamond. */
function dot(name, x, y, ...within) {
    if (name !== "smallest") return svg("circle", { class: "largest", cx: x, cy: y, r: 3.5 }, ...within);
    return svg("path", { class: "smallest", d: `M${x - 6},${y} l6,-6 l6,6 l-6,6 z` }, ...within);
}

/** A piece of a curve, for the words below it. */
function key(name) {
    const kind = name === "smallest" ? "smallest" : "largest";
    return svg("svg", { class: "key", viewBox: "0 0 40 16", width: 40, height: 16, "aria-hidden": "true" }, svg("polyline", { class: kind, points: "0,8 40,8" }), dot(name, 20, 8));
}

/** The drawing: chances upwards, nights to the right; where there are two curves, what lies between them is in the players' hands. */
function curve(curves, label) {
    const nights = curves[0].chances.length - 1;
    const two = curves.length > 1;
    const [left, right, top, bottom] = [52, two ? 560 : 622, 16, 228];
    const x = (night) => left + ((right - left) * night) / nights;
    const y = (chance) => bottom - ((bottom - top) * chance) / CERTAIN;
    const points = curves.map(({ chances }) => chances.map((chance, night) => [x(night), y(chance)]));
    const joined = (all) => all.map((point) => point.join(",")).join(" ");
    const parts = two ? [svg("polygon", { class: "between", points: joined([...points[0], ...[...points[1]].reverse()]) })] : [];
    parts.push(...[0, 250000, 500000, 750000, CERTAIN].flatMap((chance) => [
        svg("line", { class: "grid", x1: left, x2: right, y1: y(chance), y2: y(chance) }),
        svg("text", { x: left - 10, y: y(chance) + 4, "text-anchor": "end" }, `${chance / 10000}%`),
    ]));
    // the last night has its number, and one just before it has none
    const step = nights > 16 ? 2 : 1;
    const numbered = repeated(nights + 1, (night) => night).filter((night) => night === nights || (night % step === 0 && night + step <= nights));
    parts.push(...numbered.map((night) => svg("text", { x: x(night), y: bottom + 20, "text-anchor": "middle" }, String(night))));
    parts.push(svg("text", { x: (left + right) / 2, y: bottom + 38, "text-anchor": "middle" }, "night"));
    // the smallest first, so that a disc in a diamond is seen where both are the same
    for (const [i, { name, chances }] of [...curves.entries()].reverse()) {
        parts.push(svg("polyline", { class: name === "smallest" ? "smallest" : "largest", points: joined(points[i]) }));
        points[i].forEach(([px, py], night) => parts.push(dot(name, px, py, svg("title", {}, `night ${night}: ${two ? `${name} ` : ""}${percent(chances[night], CERTAIN)}`))));
    }
    if (two) {
        const [large, small] = points.map((all) => all.at(-1)[1]);
        const apart = Math.max(0, 16 - (small - large)) / 2;
        const up = Math.min(Math.max(large - apart, top), bottom - 16);
        const down = Math.max(Math.min(small + apart, bottom), up + 16);
        parts.push(svg("text", { class: "largest", x: right + 12, y: up + 4 }, "largest"), svg("text", { class: "smallest", x: right + 12, y: down + 4 }, "smallest"));
    }
    return svg("svg", { viewBox: "0 0 640 274", role: "img", "aria-label": label }, ...parts);
}

// ---- what is clicked

function start({ dataset: { example: name, kind, role } }) {
    const text = plainText(`example-${name}`);
    const line = text.indexOf("\n");
    cardEditor.field.value = text.slice(line + 1);
    cardEditor.field.setSelectionRange(0, 0);
    now.seats = [...text.slice(0, line)].map(Number);
    // on a card with a shared number it is the last digit, and on any other it is not looked at
    now.shared = now.seats.at(-1);
    now.choice = undefined;
    now.name = name;
    questionEditor.field.value = "";
    readCard(0);
    [$("kind").value, $("role").value] = [kind, role];
    questionEditor.field.value = written(kind, Number(role), now.card.seats);
    readQuestion(0);
}

cardEditor.field.addEventListener("input", () => readCard());
questionEditor.field.addEventListener("input", () => readQuestion());
$("nights").max = String(ODDS_NIGHTS);
$("nights").addEventListener("input", drawOdds);
const examples = document.querySelectorAll("[data-example]");
for (const button of examples) button.addEventListener("click", () => start(button));
$("go").addEventListener("click", () => cardEditor.show());
$("layout").addEventListener("click", () => showText(now.text === "write" ? undefined : "write"));
$("reduced").addEventListener("click", () => showText(now.text === "reduce" ? undefined : "reduce"));
$("use").addEventListener("click", () => cardEditor.put($("text-bytes").textContent, decode(typed().bytes.subarray(0, typed().line)).length));
$("copy").addEventListener("click", async () => {
    const copied = await navigator.clipboard?.writeText($("text-bytes").textContent).then(() => true, () => false);
    $("copied").textContent = copied ? "Copied." : "The browser does not let the page copy: select the text.";
});
$("shuffle").addEventListener("click", shuffle);
$("begin").addEventListener("click", () => setSeats(now.seats.map(() => now.card.begins), now.card.sharedBegins));
$("put").addEventListener("click", () => questionEditor.put(written($("kind").value, Number($("role").value), now.card.seats)));
$("put-shared").addEventListener("click", () => questionEditor.put(`(g=${$("value").value})`));
$("open").addEventListener("change", async ({ target }) => {
    const [file] = target.files;
    if (!file) return;
    cardEditor.field.value = decode(new Uint8Array(await file.arrayBuffer()));
    now.card = undefined;
    now.name = file.name;
    target.value = "";
    readCard(0);
});
$("save").addEventListener("click", () => {
    // of no kind that a browser would put an ending to its name for
    const address = URL.createObjectURL(new Blob([cardEditor.text], { type: "application/octet-stream" }));
    element("a", { href: address, download: now.name ?? "card" }).click();
    setTimeout(() => URL.revokeObjectURL(address), 1000);
});

start(examples[0]);
document.documentElement.dataset.ready = "yes";
