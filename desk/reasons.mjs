// Which of its reasons a refusal has, found from the bytes that were refused, for the page. rust/desk/src does the same for the command, in
// marks.rs, walk.rs and reason.rs; tests/desk-reasons.mjs holds both to each other. Number and place are always the library's.
//
// A text is a string with a character from 0 to 255 for each byte (`bytesAsText`).

const NUMBER_DIGITS = 6;
const WORD_DIGITS = 5;
const CARD_BYTES = 16384;
const SEATS = 16;
const STATEMENTS = 32;
const BRANCHES = 8;
const NODES = 32;
const DEPTH = 8;
const TOP = 7;
const SHARED = "g";
const ODDS_ROW = 512;
export const ODDS_NIGHTS = 32;
export const UNIT = 277200;

let sentences = new Map();

/** Takes the sentences of desk/reasons.txt. */
export function useSentences(text) {
    const lines = text.split("\n").filter((line) => !line.startsWith("#") && line.includes(" = "));
    sentences = new Map(lines.map((line) => [line.slice(0, line.indexOf(" = ")), line.slice(line.indexOf(" = ") + 3)]));
}

function sentence(name, fills = {}) {
    if (!sentences.has(name)) throw new Error(`there is no sentence ${name}`);
    return sentences.get(name).replace(/\{([a-z-]+)\}/g, (_, place) => {
        if (fills[place] === undefined) throw new Error(`${name} has no ${place}`);
        return fills[place];
    });
}

/** Bytes as a string of characters from 0 to 255. */
export function bytesAsText(bytes) {
    let text = "";
    for (let at = 0; at < bytes.length; at += 4096) text += String.fromCharCode(...bytes.subarray(at, at + 4096));
    return text;
}

// ---- marks

/** All marks of a text, up to the first that is wrong, or else its end; that one is the last. */
export function marks(text) {
    const all = [];
    let at = 0;
    for (;;) {
        at = behindBlanks(text, at);
        const mark = markAt(text, at);
        at = mark.end;
        all.push(mark);
        if (mark.kind === "wrong" || mark.kind === "end") return all;
    }
}

function match(pattern, text, at) {
    pattern.lastIndex = at;
    const found = pattern.exec(text);
    return found ? found[0] : "";
}

const BLANKS = /(?:[ \t\r\n]|\/\/[^\n]*)*/y;
const DIGITS = /[0-9]+/y;
const DECIMAL = /[0-9]+\.[0-9]+/y;
const WORD = /[A-Za-z][A-Za-z0-9_]*/y;
const SIGN = /\.\.|->|!=|[[\]:;=!&|()+',/]/y;

const behindBlanks = (text, at) => at + match(BLANKS, text, at).length;
const isNumber = (digits, most) => /^(0|[1-9][0-9]*)$/.test(digits) && digits.length <= most;

function markAt(text, at) {
    const made = (kind, shown, more = {}) => ({ kind, at, end: at + shown.length, shown, ...more });
    if (at === text.length) return made("end", "");
    const decimal = match(DECIMAL, text, at);
    if (decimal) {
        const [whole, further] = decimal.split(".");
        const good = isNumber(whole, NUMBER_DIGITS) && further.length <= NUMBER_DIGITS;
        return made(good ? "decimal" : "wrong", decimal);
    }
    const digits = match(DIGITS, text, at);
    if (digits) return isNumber(digits, NUMBER_DIGITS) ? made("number", digits, { value: Number(digits) }) : made("wrong", digits);
    const word = match(WORD, text, at);
    if (word) {
        for (const [stem, kind] of [["s", "seat"], ["process", "module"]]) {
            const rest = word.slice(stem.length);
            if (word.startsWith(stem) && isNumber(rest, WORD_DIGITS)) return made(kind, word, { value: Number(rest) });
        }
        return made("word", word);
    }
    const sign = match(SIGN, text, at);
    return sign ? made("sign", sign) : made("wrong", text[at]);
}

// ---- the walk along the shape

class Stop {
    constructor(mark, within, due, limit) {
        Object.assign(this, { mark, within, due, limit });
    }
}

/** Walks along a card: where the shape stops and what was due there, and what stands on the way. */
export const walkCard = (text) => new Walker(text).walk((walker) => walker.card());

/** Walks along a question about a card. */
export const walkQuestion = (text, { shares }) => new Walker(text).walk((walker) => walker.question(shares));

class Walker {
    constructor(text) {
        Object.assign(this, { text, next: 0, nodes: 0, asks: false });
        this.met = {
            marks: marks(text), stop: undefined, groups: [], ones: [], states: [], words: [], weights: [], sums: [], statements: [],
            modules: [], copies: [], top: undefined, shares: false, sharedTop: undefined, values: [], nondeterministic: false,
        };
    }

    walk(shape) {
        try {
            shape(this);
        } catch (stop) {
            if (!(stop instanceof Stop)) throw stop;
            this.met.stop = stop;
        }
        return this.met;
    }

    peek(more = 0) {
        return this.met.marks[Math.min(this.next + more, this.met.marks.length - 1)];
    }

    last() {
        return this.met.marks[this.next - 1];
    }

    is(sign) {
        const mark = this.peek();
        return mark.kind !== "wrong" && mark.kind !== "end" && mark.shown === sign;
    }

    take() {
        const mark = this.peek();
        this.next = Math.min(this.next + 1, this.met.marks.length - 1);
        return mark;
    }

    takes(sign) {
        const is = this.is(sign);
        if (is) this.take();
        return is;
    }

    stop(within, ...due) {
        throw new Stop(this.next, within, due);
    }

    passes(limit) {
        throw new Stop(this.next, "limit", [], limit);
    }

    due(sign, within) {
        if (!this.is(sign)) this.stop(within, sign);
        return this.take();
    }

    word(kind, word, within) {
        if (this.peek().kind !== kind) this.stop(within, word);
        this.met.words.push({ mark: this.take(), word, within });
    }

    seat(due, within) {
        this.word("seat", `s${due}`, within);
    }

    module(due, within) {
        this.word("module", `process${due}`, within);
    }

    number(due, within) {
        if (this.peek().kind !== "number") this.stop(within, due);
        return this.take();
    }

    state(role, within) {
        this.met.states.push([this.number("@role", within), role]);
    }

    card() {
        this.met.nondeterministic = this.is("nondeterministic");
        if (!this.takes("nondeterministic") && !this.takes("probabilistic")) this.stop("mode", "probabilistic", "nondeterministic");
        if (this.takes("global")) this.declaration();
        if (!this.takes("module")) this.stop("module", ...(this.met.shares ? ["module"] : ["module", "global"]));
        this.met.modules.push(1);
        this.module(1, "first module");
        this.seat(1, "roles");
        this.due(":", "roles");
        this.due("[", "roles");
        if (!this.takes("0")) this.stop("lowest role", "0");
        this.due("..", "roles");
        const mark = this.next;
        const top = this.number("@top", "roles");
        if (top.value > TOP) {
            this.next = mark;
            this.passes("top");
        }
        this.met.top = top;
        this.due("]", "roles");
        this.due("init", "roles");
        this.state("init", "roles");
        this.due(";", "roles");
        while (this.is("[")) {
            if (this.met.statements.length === STATEMENTS) this.passes("statements");
            this.statement();
        }
        if (this.met.statements.length === 0) this.stop("no statement", "[]");
        if (!this.takes("endmodule")) this.stop("statements", "[]", "endmodule");
        while (this.peek().kind !== "end") {
            if (!this.is("module")) this.stop("copies", "module", "@end");
            if (this.met.modules.length === SEATS) this.passes("seats");
            this.copy();
        }
    }

    // The shared number, from behind `global` on.
    declaration() {
        this.met.shares = true;
        this.due(SHARED, "shared name");
        this.due(":", "declaration");
        this.due("[", "declaration");
        if (!this.takes("0")) this.stop("lowest value", "0");
        this.due("..", "declaration");
        const mark = this.next;
        const top = this.number("@highest-value", "declaration");
        if (top.value > TOP) {
            this.next = mark;
            this.passes("shared");
        }
        this.met.sharedTop = top;
        this.due("]", "declaration");
        this.due("init", "declaration");
        this.value("init", "declaration");
        this.due(";", "declaration");
    }

    // A value of the shared number.
    value(of, within) {
        this.met.values.push([this.number("@value", within), of]);
    }

    copy() {
        this.met.copies.push(this.next);
        this.take();
        const seat = this.met.copies.length + 1;
        if (this.peek().kind === "module") this.met.modules.push(this.peek().value);
        this.module(seat, "copy");
        this.due("=", "copy");
        this.module(1, "copied");
        this.due("[", "copy");
        this.seat(1, "exchange");
        this.due("=", "copy");
        this.seat(seat, "exchange");
        this.due(",", "copy");
        this.seat(seat, "exchange");
        this.due("=", "copy");
        this.seat(1, "exchange");
        this.due("]", "copy");
        this.due("endmodule", "copy");
    }

    statement() {
        const from = this.take().at;
        const statement = [from, from];
        this.met.statements.push(statement);
        this.nodes = 0;
        this.due("]", "action");
        this.seat(1, "own role");
        this.due("=", "own role");
        this.state("own", "own role");
        if (this.takes("&")) {
            this.unary(0, "condition");
            this.conjuncts(0);
        }
        if (!this.takes("->")) this.stop("guard", "&", "->");
        this.branches();
        statement[1] = this.last().end;
    }

    branches() {
        const first = this.met.weights.length;
        let sum = 0;
        for (;;) {
            if (this.peek().kind !== "number" && this.peek().kind !== "decimal") this.stop("weight", "@weight");
            if (this.met.weights.length - first === BRANCHES) this.passes("branches");
            sum += this.weight();
            this.due("(", "update");
            this.seat(1, "update");
            this.due("'", "prime");
            this.due("=", "update");
            this.state("branch", "update");
            this.due(")", "update");
            const sets = this.met.shares && this.takes("&");
            if (sets) this.sharedUpdate();
            if (this.is(";")) {
                this.met.sums.push([this.take(), sum]);
                return;
            }
            if (!this.takes("+")) this.stop("branch", ...(this.met.shares && !sets ? ["&"] : []), "+", ";");
        }
    }

    // What a branch sets the shared number to, from behind `&` on.
    sharedUpdate() {
        this.due("(", "shared update");
        this.due(SHARED, "shared update");
        this.due("'", "shared prime");
        this.due("=", "shared update");
        this.value("branch", "shared update");
        this.due(")", "shared update");
    }

    weight() {
        const first = this.take();
        let below;
        if (first.kind === "number" && this.takes("/")) below = this.number("@below", "fraction");
        this.met.weights.push([first, below ?? first]);
        if (!this.takes(":")) this.stop("behind weight", ...(first.kind === "number" && !below ? ["/", ":"] : [":"]));
        return units(first, below) ?? 0;
    }

    question(shares) {
        this.asks = true;
        this.met.shares = shares;
        this.expression(0, "question");
        if (this.peek().kind !== "end") this.stop("question", "&", "|", "@question-end");
    }

    expression(depth, within) {
        this.unary(depth, within);
        this.conjuncts(depth);
        while (this.is("|")) {
            this.node();
            this.take();
            this.unary(depth, "condition");
            this.conjuncts(depth);
        }
    }

    conjuncts(depth) {
        while (this.is("&")) {
            this.node();
            this.take();
            this.unary(depth, "condition");
        }
    }

    node() {
        if (this.nodes === NODES) this.passes("nodes");
        this.nodes += 1;
    }

    unary(depth, within) {
        if (this.is("!")) {
            if (depth === DEPTH) this.passes("depth");
            this.node();
            this.take();
            this.unary(depth + 1, "condition");
            return;
        }
        if (!this.is("(")) this.stop(within, ...(within === "bracket" ? ["@seat", ...(this.met.shares ? [SHARED] : [])] : []), "(", "!");
        if (this.peek(1).kind === "seat") {
            this.node();
            this.met.groups.push(this.group(["&", "|"]));
            return;
        }
        if (this.met.shares && this.peek(1).shown === SHARED) {
            this.node();
            this.test();
            return;
        }
        if (this.asks && this.startsOne()) {
            this.node();
            this.one();
            return;
        }
        if (depth === DEPTH) this.passes("depth");
        this.take();
        this.expression(depth + 1, "bracket");
        if (!this.takes(")")) this.stop("expression", "&", "|", ")");
    }

    // A test of the shared number.
    test() {
        this.take();
        this.take();
        if (!this.takes("=") && !this.takes("!=")) this.stop("relation", "=", "!=");
        this.value("test", "test");
        this.due(")", "test");
    }

    group(signs) {
        const at = this.take().at;
        const literals = [];
        let sign;
        for (;;) {
            if (this.peek().kind !== "seat") this.stop("literal", "@seat");
            const seat = this.take().value;
            const differs = this.is("!=");
            if (!this.takes("=") && !this.takes("!=")) this.stop("relation", "=", "!=");
            const state = this.number("@role", "literal");
            if (literals.length === 0) this.met.states.push([state, "group"]);
            literals.push({ seat, differs, state: state.value });
            if (this.is(")")) return { at, end: this.take().end, any: sign === "|", literals };
            const joined = sign ? [sign] : signs;
            const found = joined.find((one) => this.is(one));
            if (!found) this.stop(signs.length === 1 ? "term" : sign ? "group" : "first literal", ...joined, ")");
            sign = found;
            this.take();
        }
    }

    startsOne() {
        const here = this.next;
        const states = this.met.states.length;
        let term;
        this.take();
        try {
            if (this.is("(")) term = this.group(["&"]);
        } catch (stop) {
            if (!(stop instanceof Stop)) throw stop;
        }
        this.next = here;
        this.met.states.length = states;
        return [false, true].every((differs) => term?.literals.some((literal) => literal.differs === differs));
    }

    one() {
        const at = this.take().at;
        const terms = [];
        for (;;) {
            if (!this.is("(")) this.stop("next term", "(");
            const states = this.met.states.length;
            terms.push(this.group(["&"]));
            if (terms.length > 1) this.met.states.length = states;
            if (this.is(")")) {
                this.met.ones.push({ at, end: this.take().end, terms });
                return;
            }
            if (!this.takes("|")) this.stop("terms", "|", ")");
        }
    }
}

// A weight in units, if it is good. A decimal is none.
function units(first, below) {
    if (below) return below.value !== 0 && UNIT % below.value === 0 && first.value <= below.value ? (UNIT / below.value) * first.value : undefined;
    return first.kind === "number" && first.value <= 1 ? first.value * UNIT : undefined;
}

// ---- reasons

const LONGEST_MENDED = 80;
const found = (name, end, fills = {}, hint, hintFills) => ({ name, end, fills, hint, hintFills });
const hinted = (reason, hint, hintFills = {}) => ({ ...reason, hint, hintFills });
const plain = (number, end) => found(`plain.${number}`, end);
const grouped = (number) => String(number).replace(/\B(?=(\d{3})+$)/g, ",");
const many = (count, one) => `${grouped(count)} ${one}${count === 1 ? "" : "s"}`;
const cut = (shown) => (shown.length > 40 ? `${shown.slice(0, 40)}..` : shown);
const touching = (...all) => all.every((mark, i) => i === 0 || all[i - 1]?.end === mark?.at);
const moduleLine = (seat) => (seat === 1 ? "module process1" : `module process${seat} = process1 [s1=s${seat}, s${seat}=s1] endmodule`);

function listed(things, word) {
    return things.length < 2 ? things.join("") : `${things.slice(0, -1).join(", ")} ${word} ${things.at(-1)}`;
}

/**
 * Why something is refused: its sentence, a hint if there is one, and the bytes that it is about, in the text that the refusal is `of`. What was
 * handed in is a card, and perhaps a question and seats as they were typed, and how many nights odds were asked for, as strings of bytes.
 */
export function explain({ number, place }, { card = "", question = "", seats = "", nights = "" }) {
    const of = number > 20 ? "question" : number === 15 ? "nights" : number === 8 || number === 9 ? "seats" : "card";
    let at = place;
    let reason;
    if (of === "question") reason = ofText(question, number - 20, place, "question", walkQuestion, walkCard(card));
    else if (of === "nights") reason = found("odds.nights", nights.length, { found: cut(nights), most: ODDS_NIGHTS });
    else if (number === 14) ({ at, reason } = ofTable(card));
    else if (of === "card") reason = ofText(card, number, place, "card", walkCard);
    else ({ at, reason } = ofSeats(seats, card, number, place));
    return {
        number, place, of, from: at, to: Math.max(at, reason.end), name: reason.name, sentence: sentence(reason.name, reason.fills),
        hint: reason.hint ? sentence(reason.hint, reason.hintFills) : "",
    };
}

function ofText(text, number, at, what, walkText, on) {
    if (number === 1) return long(text, what);
    if (number === 2) return wrongMark(text, at, what);
    const walk = walkText(text, on);
    const table = on ?? walk;
    switch (number) {
        case 3:
            return shape(walk, at, what) ?? plain(number, at);
        case 4:
            return limit(walk, at, on ? "question" : "guard") ?? plain(number, at);
        case 5:
            return state(walk, table, at) ?? plain(number, at);
        case 6:
            return (on ? askedGroup(walk, on, at) : word(walk, at)) ?? plain(number, at);
        case 7:
            return weight(walk, at) ?? plain(number, at);
        case 17:
            return decimal(walk, at) ?? plain(number, at);
        default:
            return plain(number, at);
    }
}

function long(text, what) {
    const comments = text.split("\n").reduce((sum, line) => sum + (line.includes("//") ? line.length - line.indexOf("//") : 0), 0);
    const reason = found("long", 0, { what, bytes: many(text.length, "byte"), most: grouped(CARD_BYTES) });
    return comments ? hinted(reason, "hint.comments", { comments: grouped(comments) }) : reason;
}

const TAKEN_FOR = {
    "\u2018": "'", "\u2019": "'", "\u2032": "'", "\u00b4": "'", "\u2013": "->", "\u2014": "->", "\u2212": "->", "\u2192": "->", "\u21d2": "->",
    "\u2260": "!=", "\u00ac": "!", "\u2227": "&", "\u2228": "|", "\u2026": "..", "\u2044": "/", "\u00f7": "/", "\u2236": ":",
    "\u00bd": "1/2", "\u00bc": "1/4", "\u00be": "3/4", "\u2153": "1/3", "\u2154": "2/3",
};

function wrongMark(text, at, what) {
    const all = marks(text);
    const wrong = all.at(-1);
    if (wrong.kind !== "wrong" || wrong.at !== at) return plain(2, at);
    const before = all.at(-2)?.end === at ? all.at(-2) : undefined;
    const first = wrong.shown[0];
    const weightDueBehind = (mark) => mark?.shown === "->" || mark?.shown === "+";
    const asWeight = weightDueBehind(all.at(-2));
    // as in `0,05`, where the zero is not too much
    const withComma = weightDueBehind(all.at(-4)) ? commaForPoint(all.at(-3), all.at(-2), wrong) : undefined;
    if (withComma) return { ...withComma, end: wrong.end };
    if (/[0-9]/.test(first)) return wrongDigits(wrong, asWeight);
    if (first === "." && before?.shown === "..") return hinted(found("mark.third-point", at + 1), "hint.write", { mended: ".." });
    if (first === "." && /[0-9]/.test(text[at + 1] ?? "")) {
        if (before?.kind === "decimal") return found("mark.second-point", at + 1);
        const further = match(DIGITS, text, at + 1);
        return hinted(found("mark.point-first", at + 1 + further.length, { found: cut(`.${further}`) }), ...inPlaceOf("0", further, asWeight));
    }
    if (first === ".") {
        const reason = found("mark.point", at + 1);
        return before?.kind === "number" ? hinted(reason, "hint.write", { mended: before.shown }) : reason;
    }
    if (first === "-") return hinted(found("mark.minus", at + 1), "hint.write", { mended: "->" });
    if (first === ">" && before?.shown === "=") return found("mark.arrow", at + 1);
    if (first === "<" || first === ">") return found("mark.compare", at + 1, { found: first });
    if (first === "_") return found("mark.underscore", at + 1);
    return wrongCharacter(text, at, what);
}

function wrongDigits({ shown, end }, asWeight) {
    const [whole, further = ""] = shown.split(".");
    if (whole.length > 1 && whole[0] === "0") {
        const rest = whole.slice(Math.min(/^0*/.exec(whole)[0].length, whole.length - 1));
        return hinted(found("mark.zero", end, { found: cut(shown) }), ...(further ? inPlaceOf(rest, further, asWeight) : ["hint.write", { mended: cut(rest) }]));
    }
    const [name, digits] = whole.length > NUMBER_DIGITS ? ["mark.digits", whole.length] : ["mark.further", further.length];
    const reason = found(name, end, { found: cut(shown), digits, most: NUMBER_DIGITS });
    return further ? hinted(reason, ...inPlaceOf(whole, further, asWeight)) : reason;
}

// A comma between digits, as some write a decimal.
function commaForPoint(whole, comma, further) {
    if (whole?.kind !== "number" || comma.shown !== "," || !/^[0-9]+$/.test(further?.shown) || !touching(whole, comma, further)) return undefined;
    return hinted(found("shape.comma", comma.end, { found: cut(`${whole.shown},${further.shown}`) }), ...inPlaceOf(whole.shown, further.shown, true));
}

const THIRDS = [[1, 3], [2, 3], [1, 6], [5, 6]];
const MOST_DIGITS = 9;

// What may be written in place of a decimal: the fraction that it is, if it stands as a weight and that is one, or a fraction that it is cut or
// rounded from.
function inPlaceOf(whole, further, asWeight) {
    if (!asWeight) return ["hint.decimal"];
    if (whole.length > NUMBER_DIGITS || further.length > MOST_DIGITS) return ["hint.chance"];
    const one = 10 ** further.length;
    const parts = Number(whole) * one + Number(further);
    if (parts > one) return ["hint.at-most"];
    const exact = (parts * UNIT) % one === 0 ? fraction(parts, one) : undefined;
    const comesNear = ([above, below]) => [Math.floor((above * one) / below), Math.floor((2 * above * one + below) / (2 * below))].includes(parts);
    const near = further.length > 1 ? THIRDS.find(comesNear)?.join("/") : undefined;
    if (exact && near) return ["hint.either", { mended: exact, near }];
    return exact ?? near ? ["hint.write", { mended: exact ?? near }] : ["hint.fraction", { unit: grouped(UNIT) }];
}

// The character that begins at a byte, if it is one that can be shown.
function characterAt(text, at) {
    for (let length = 1; length <= 4 && at + length <= text.length; length += 1) {
        const bytes = Uint8Array.from(text.slice(at, at + length), (byte) => byte.charCodeAt(0));
        try {
            const character = new TextDecoder("utf-8", { fatal: true, ignoreBOM: true }).decode(bytes);
            return /\p{Cc}/u.test(character) ? undefined : { character, length };
        } catch {
            // a longer one, perhaps
        }
    }
    return undefined;
}

const hex = (number, digits) => number.toString(16).toUpperCase().padStart(digits, "0");

function wrongCharacter(text, at, what) {
    if (text.startsWith("\xef\xbb\xbf", at)) return hinted(found("mark.bom", at + 3, { what }), "hint.bom");
    const here = characterAt(text, at);
    if (!here) return found("mark.byte", at + 1, { code: `0x${hex(text.charCodeAt(at), 2)}`, what });
    const { character, length } = here;
    const point = character.codePointAt(0);
    const reason = point < 128
        ? found("mark.sign", at + 1, { found: character, what })
        : found("mark.character", at + length, { found: character, code: `U+${hex(point, 4)}`, what });
    if (TAKEN_FOR[character]) return hinted(reason, "hint.write", { mended: TAKEN_FOR[character] });
    if (character === "#" || character === "*") return hinted(reason, "hint.comment");
    if (character === "%") return hinted(reason, "hint.chance");
    if (/[\u00a0\u2002-\u200b\u202f\u3000]/.test(character)) return hinted(reason, "hint.space");
    return reason;
}

const KEYWORDS = ["probabilistic", "nondeterministic", "global", "module", "endmodule", "init"];
const MODES = { dtmc: "probabilistic", mdp: "nondeterministic", ctmc: "probabilistic" };
const dueInWords = (due) => (due.startsWith("@") ? sentence(`due.${due.slice(1)}`) : `\`${due}\``);
const doubled = (before, mark) => before !== undefined && touching(before, mark) && before.shown === mark.shown;

function shape(walk, at, what) {
    const { stop } = walk;
    if (!stop || stop.limit) return undefined;
    const mark = walk.marks[stop.mark];
    if (mark.at !== at) return undefined;
    const due = listed(stop.due.map(dueInWords), "or");
    const [before, behind] = [walk.marks[stop.mark - 1], walk.marks[stop.mark + 1]];
    const withComma = stop.within === "behind weight" ? commaForPoint(before, mark, behind) : undefined;
    if (withComma) return withComma;
    const joining = mark.shown === "&" || mark.shown === "|";
    let reason;
    if (mark.kind === "end") reason = found("shape.ends", at, { what, due });
    else if (stop.within === "guard" && mark.shown === "|") reason = found("shape.or", mark.end);
    else if (stop.within === "group" && joining && !doubled(before, mark)) reason = found("shape.mixed", mark.end, { found: mark.shown, sign: stop.due[0] });
    else reason = found("shape", mark.end, { found: cut(mark.shown), due });
    const shared = sharedHint(walk, stop, what);
    const hint = shared ? [shared] : shapeHint(walk, stop);
    return hint ? hinted(reason, ...hint) : reason;
}

function shapeHint(walk, stop) {
    const mark = walk.marks[stop.mark];
    const { shown } = mark;
    if (mark.kind === "word") {
        const lower = cut(shown).toLowerCase();
        if (lower !== cut(shown) && (stop.due.includes(lower) || (stop.due.includes("@seat") && lower.startsWith("s")))) return ["hint.case", { mended: lower }];
        if (stop.within === "mode" && Object.hasOwn(MODES, shown)) return ["hint.mode", { mended: MODES[shown] }];
        if (/^(s|process)[0-9]+$/.test(lower)) return ["hint.word-number", { most: WORD_DIGITS }];
        if (stop.within === "action") return ["hint.action"];
        const runOn = stop.due.find((due) => KEYWORDS.includes(due) && shown.startsWith(due));
        if (runOn) return ["hint.blank", { mended: runOn }];
        const near = stop.due.find((due) => KEYWORDS.includes(due) && distance(lower, due) <= 2);
        if (near) return ["hint.meant", { mended: near }];
    }
    if (doubled(walk.marks[stop.mark - 1], mark) && ["&", "|", "="].includes(shown)) return ["hint.single", { mended: shown }];
    if (mark.kind === "decimal") return ["hint.decimal"];
    const seat = mark.kind === "seat";
    switch (stop.within) {
        case "guard":
            return shown === "|" ? ["hint.or"] : undefined;
        case "group":
            return shown === "&" || shown === "|" ? ["hint.mixed"] : undefined;
        case "terms":
        case "term":
            return ["hint.terms"];
        case "branch":
            return ["hint.semicolon"];
        case "roles":
            return stop.due[0] === ";" ? ["hint.roles"] : undefined;
        case "no statement":
            return ["hint.statement"];
        case "lowest role":
            return ["hint.lowest"];
        case "prime":
            return shown === "=" ? ["hint.prime"] : undefined;
        case "condition":
        case "question":
            return seat ? ["hint.condition"] : undefined;
        case "weight":
            return shown === "(" || seat ? ["hint.weight"] : undefined;
        case "copies":
            return ["hint.copies", { line: moduleLine(walk.modules.length + 1) }];
        case "copy":
        case "copied":
        case "exchange":
            return ["hint.copy", { line: moduleLine(copyAt(walk, stop.mark)) }];
        default:
            return undefined;
    }
}

// What may help where the shared number, or its declaration, does not fit.
function sharedHint({ marks: all, shares }, { mark, within, due }, what) {
    const { shown } = all[mark];
    const behind = (more) => all[mark + more]?.shown;
    const named = shown === SHARED;
    const missing = what === "question" ? "hint.not-shared" : "hint.undeclared";
    if (shown === "global") return "hint.global";
    if (within === "module" && named) return "hint.undeclared";
    if (["bracket", "condition", "question", "literal", "update"].includes(within) && named && !shares) return missing;
    if ((within === "literal" && named) || (within === "test" && (shown === "&" || shown === "|"))) return "hint.test-alone";
    if ((within === "condition" || within === "question") && named) return "hint.test-brackets";
    if (within === "update" && named) return "hint.seat-first";
    if (within === "branch" && shown === "&") return shares ? "hint.set-once" : behind(2) === SHARED ? missing : undefined;
    if (within === "branch" && shown === "(" && shares && behind(1) === SHARED) return "hint.seat-first";
    if (within === "shared prime" && shown === "=") return "hint.shared-prime";
    if (within === "lowest value") return "hint.lowest-value";
    if (within === "declaration" && due[0] === ";") return "hint.declaration";
    // in capitals it is the case that is wrong
    if (within === "shared name" && shown.toLowerCase() !== SHARED) return "hint.name";
    return undefined;
}

const copyAt = (walk, mark) => 1 + walk.copies.filter((copy) => copy <= mark).length;

// How many letters have to be put, dropped or changed to make one word of another.
function distance(one, other) {
    let row = Array.from({ length: other.length + 1 }, (_, i) => i);
    [...one].forEach((letter, i) => {
        const next = [i + 1];
        for (let j = 0; j < other.length; j += 1) next.push(Math.min(row[j] + (letter !== other[j]), next[j] + 1, row[j + 1] + 1));
        row = next;
    });
    return row[other.length];
}

function limit(walk, at, part) {
    const { stop } = walk;
    const mark = stop && walk.marks[stop.mark];
    if (!stop?.limit || mark.at !== at) return undefined;
    const most = { seats: SEATS, statements: STATEMENTS, branches: BRANCHES, nodes: NODES, depth: DEPTH, top: TOP, shared: TOP }[stop.limit];
    return found(`limit.${stop.limit}`, mark.end, { most, part, found: mark.shown });
}

function state(walk, table, at) {
    const [valued, of] = walk.values.find(([mark]) => mark.at === at) ?? [];
    if (valued) {
        const top = table.sharedTop?.shown ?? "";
        return hinted(found(`value.${of}`, valued.end, { found: valued.shown, top }), "hint.value", { top });
    }
    const [mark, role] = walk.states.find(([mark]) => mark.at === at) ?? [];
    if (!mark) return undefined;
    const top = table.top?.shown ?? "";
    return hinted(found(`state.${role}`, mark.end, { found: mark.shown, top }), "hint.role", { top });
}

function word(walk, at) {
    const due = walk.words.find(({ mark }) => mark.at === at);
    if (due) {
        const reason = found("word", due.mark.end, { found: cut(due.mark.shown), due: due.word });
        const line = moduleLine(copyAt(walk, walk.marks.findIndex((mark) => mark.at === at)));
        switch (due.within) {
            case "copy":
                return hinted(reason, "hint.rising", { line });
            case "copied":
            case "exchange":
                return hinted(reason, "hint.copy", { line });
            case "own role":
            case "update":
                return hinted(reason, "hint.own");
            default:
                return reason;
        }
    }
    const group = walk.groups.find((group) => group.at === at);
    if (!group) return undefined;
    const seats = walk.modules.length;
    const other = unlike(group) ?? moduleMissing(walk, group);
    if (other) return other;
    const from = group.literals.some((literal) => literal.seat === 1) ? 1 : 2;
    const wrong = faults(group, from, seats);
    if (seats === 1) return hinted(found("group.one-seat", group.end, { faults: wrong }), "hint.write", { mended: spelled(group, 1, 1) });
    const reason = found("group.seats", group.end, { faults: wrong, all: `${runOfSeats(1, seats)}, or ${runOfSeats(2, seats)},` });
    const mended = spelled(group, from, seats);
    if (wanted(walk) === seats - 1 && mended.length <= LONGEST_MENDED) return hinted(reason, "hint.drop", { mended, seats });
    return mend(reason, mended);
}

const mend = (reason, mended) => (mended.length > LONGEST_MENDED ? reason : hinted(reason, "hint.write", { mended }));
const rising = (numbers) => [...new Set(numbers)].sort((a, b) => a - b);

function unlike(group) {
    const [first] = group.literals;
    if (group.literals.some((literal) => literal.differs !== first.differs)) return hinted(found("group.relations", group.end), "hint.relations");
    const roles = rising(group.literals.map((literal) => literal.state));
    if (roles.length > 1) return hinted(found("group.roles", group.end, { roles: listed(roles.map(String), "and") }), "hint.groups");
    return undefined;
}

// The number of seats for which a group names each once, or each but the first.
function covers(group) {
    const seats = rising(group.literals.map((literal) => literal.seat));
    const [from, last] = [seats[0], seats.at(-1)];
    const whole = seats.length === group.literals.length && last - from + 1 === seats.length;
    return whole && (from === 1 || from === 2) && !unlike(group) ? last : undefined;
}

function wanted(walk) {
    const all = new Set(walk.groups.map(covers));
    return all.size === 1 ? [...all][0] : undefined;
}

function moduleMissing(walk, group) {
    const seats = walk.modules.length;
    const due = wanted(walk);
    if (due === undefined || due <= seats || due > SEATS) return undefined;
    let missing = 2;
    while (missing <= due && walk.modules.includes(missing)) missing += 1;
    if (missing > due) return undefined;
    const reason = found("group.module", group.end, { foreign: due, modules: many(seats, "module"), missing });
    return hinted(reason, "hint.module", { line: moduleLine(missing) });
}

function faults(group, from, to) {
    const named = group.literals.map((literal) => literal.seat);
    const distinct = rising(named);
    const all = distinct.filter((seat) => named.filter((other) => other === seat).length > 1).map((seat) => sentence("fault.twice", { seat }));
    all.push(...distinct.filter((seat) => seat === 0 || seat > to).map((seat) => sentence("fault.foreign", { seat })));
    const missing = Array.from({ length: to - from + 1 }, (_, i) => from + i).filter((seat) => !distinct.includes(seat));
    if (missing.length === 1) all.push(sentence("fault.missing", { seat: missing[0] }));
    if (missing.length > 1) all.push(sentence("fault.missing-many", { seats: listed(missing.map(String), "and") }));
    return listed(all, "and");
}

function runOfSeats(from, to) {
    if (from === to) return `seat ${from}`;
    return `the seats ${from} ${to - from === 1 ? "and" : "to"} ${to}`;
}

function spelled({ literals: [first], any }, from, to) {
    const relation = first.differs ? "!=" : "=";
    const literals = Array.from({ length: to - from + 1 }, (_, i) => `s${from + i}${relation}${first.state}`);
    return `(${literals.join(any ? " | " : " & ")})`;
}

function askedGroup(walk, on, at) {
    const seats = on.modules.length;
    const one = walk.ones.find((one) => one.at === at);
    if (one) return askedOne(one, seats);
    const group = walk.groups.find((group) => group.at === at);
    if (!group) return undefined;
    const other = unlike(group);
    if (other) return other;
    const [mended, all] = [spelled(group, 1, seats), runOfSeats(1, seats)];
    if (covers(group) === seats) return mend(found("group.others", group.end, { all }), mended);
    return mend(found("group.asked", group.end, { faults: faults(group, 1, seats), all }), mended);
}

function askedOne(one, seats) {
    const role = one.terms[0].literals[0].state;
    const wrong = (term, place) => {
        const due = new Set(Array.from({ length: seats }, (_, i) => i + 1));
        const right = term.literals.map((literal) => literal.state === role && literal.differs === (literal.seat !== place + 1) && due.delete(literal.seat));
        return right.includes(false) || due.size > 0;
    };
    const term = one.terms.slice(0, seats).findIndex(wrong) + 1;
    if (term === 0) return found("one.terms", one.end, { found: one.terms.length, seats });
    const mended = `(${Array.from({ length: seats }, (_, i) => `s${i + 1}${i + 1 === term ? "=" : "!="}${role}`).join(" & ")})`;
    return hinted(found("one.term", one.end, { term, role }), "hint.one", { term, mended });
}

/** Parts of a whole as a fraction in lowest terms. */
export function fraction(parts, whole) {
    let [a, b] = [parts, whole];
    while (b !== 0) [a, b] = [b, a % b];
    return whole / a === 1 ? String(parts / a) : `${parts / a}/${whole / a}`;
}

function decimal(walk, at) {
    const [mark] = walk.weights.find(([first]) => first.at === at) ?? [];
    if (mark?.kind !== "decimal") return undefined;
    const [whole, further] = mark.shown.split(".");
    return hinted(found("decimal", mark.end, { found: cut(mark.shown) }), ...inPlaceOf(whole, further, true));
}

function weight(walk, at) {
    const [first, last] = walk.weights.find(([first]) => first.at === at) ?? [];
    if (first) return wrongWeight(first, last);
    const [mark, sum] = walk.sums.find(([mark]) => mark.at === at) ?? [];
    if (!mark) return undefined;
    return found(sum < UNIT ? "sum.less" : "sum.more", mark.end, { sum: fraction(sum, UNIT), rest: fraction(Math.abs(UNIT - sum), UNIT) });
}

function wrongWeight(first, last) {
    const below = last === first ? undefined : last;
    if (units(first, below) !== undefined) return undefined;
    const shown = below ? `${first.shown}/${below.shown}` : first.shown;
    const [end, fills] = [last.end, { found: shown }];
    if (!below) return found("weight.whole", end, fills);
    if (below.value === 0) return found("weight.nothing", end, fills);
    if (UNIT % below.value !== 0) return hinted(found("weight.divides", end, { ...fills, below: below.value, unit: grouped(UNIT) }), "hint.below");
    return found("weight.above", end, fills);
}

function ofSeats(typed, card, number, place) {
    const walk = walkCard(card);
    const top = walk.top?.shown ?? "";
    const digits = typed.replace(/[^0-9]/g, "");
    const blank = typed.search(/[ \t]/);
    if (typed.startsWith("\xef\xbb\xbf")) return { at: 0, reason: hinted(found("seats.bom", 3), "hint.seats-bom") };
    if (typed.endsWith("\r")) return { at: typed.length - 1, reason: hinted(found("seats.crlf", typed.length), "hint.crlf") };
    if (blank >= 0) return { at: blank, reason: hinted(found("seats.blank", blank + 1), "hint.digits", { mended: cut(digits) }) };
    if (number === 8) return { at: 0, reason: seatCount(typed, walk) };
    const seat = place + 1;
    if (place >= typed.length) return { at: place, reason: plain(9, place) };
    if (walk.shares && place === walk.modules.length) {
        const { character, length } = characterAt(typed, place) ?? { character: `0x${hex(typed.charCodeAt(place), 2)}`, length: 1 };
        const name = /[0-9]/.test(typed[place]) ? "seats.value" : "seats.value-letter";
        return { at: place, reason: found(name, place + length, { found: character, top: walk.sharedTop?.shown ?? "" }) };
    }
    if (/[0-9]/.test(typed[place])) return { at: place, reason: found("seats.role", seat, { seat, found: typed[place], top }) };
    const { character, length } = characterAt(typed, place) ?? { character: `0x${hex(typed.charCodeAt(place), 2)}`, length: 1 };
    return { at: place, reason: found("seats.letter", place + length, { seat, found: character, top }) };
}

// Not as many digits as the card wants: one for each seat, and behind them one for the shared number.
function seatCount(typed, walk) {
    const seats = walk.modules.length;
    if (!walk.shares) return found("seats.count", typed.length, { found: many(typed.length, "seat"), due: seats });
    if (typed.length !== seats) return found("seats.digits", typed.length, { found: many(typed.length, "digit"), seats: many(seats, "seat") });
    const mended = cut(typed) + walk.values[0][0].shown;
    return hinted(found("seats.no-value", typed.length, { seats: many(seats, "seat") }), "hint.value-last", { mended });
}

/** Why there are no odds of a card that is taken. */
function ofTable(card) {
    const { top: { at, end, value: top }, modules: { length: seats }, sharedTop } = walkCard(card);
    const values = 1 + (sharedTop?.value ?? 0);
    const all = ways(seats, top);
    const down = (from, to, fits) => {
        let number = from;
        while (number > to && !fits(number)) number -= 1;
        return number;
    };
    const less = down(top - 1, 0, (less) => ways(seats, less) * values <= ODDS_ROW);
    const fewer = down(seats - 1, 1, (fewer) => ways(fewer, top) * values <= ODDS_ROW);
    const name = values > 1 ? "odds.pairs" : "odds.vectors";
    const reason = found(name, end, { seats: many(seats, "seat"), top, ways: grouped(all), values, found: grouped(all * values), most: ODDS_ROW });
    // a lower highest value helps only where the seats and roles alone are not too many
    const lower = Math.floor(ODDS_ROW / all) - 1;
    const hint = values > 1 && lower >= 0 ? "hint.pairs" : "hint.vectors";
    return { at, reason: hinted(reason, hint, { seats: many(seats, "seat"), less, top, fewer: many(fewer, "seat"), lower }) };
}

/** In how many ways seats can be spread over the roles from 0 to the top. */
function ways(seats, top) {
    let made = 1;
    for (let role = 1; role <= top; role += 1) made = (made * (seats + role)) / role;
    return made;
}

/** How long the line of seats at the head of a text is with its LF. No card begins with a digit, so what does is such a line. */
export function seatsLine(text) {
    if (!/^(\xef\xbb\xbf)?[ \t]*[0-9]/.test(text)) return 0;
    const end = text.indexOf("\n");
    return end < 0 ? text.length : end + 1;
}
