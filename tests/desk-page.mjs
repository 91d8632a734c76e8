// The rule writer's page in a real browser: `node tests/desk-page.mjs BROWSER PAGE DESK OUT`. DESK is the command, which the page's answers are
// held to beside the stored panels; screenshots go into the folder OUT.
import { execFileSync } from "node:child_process";
import { existsSync, mkdtempSync, readFileSync, rmSync, writeFileSync } from "node:fs";
import { tmpdir } from "node:os";
import { pathToFileURL } from "node:url";
import { browser } from "./browser.mjs";

const [command, file, desk, out] = process.argv.slice(2);
const root = new URL("..", import.meta.url).pathname;
const EXAMPLES = ["card-a", "leader-election", "coin-toss"];
const NIGHT = "day-and-night";
const SHIFT = 8;

const began = Date.now();
const MOST = 60;
// a browser that hangs is a fault, and the gate does not wait for it
setTimeout(() => {
    console.log(`desk: the page in ${command.split("/").at(-1)}: not done after ${MOST} s`);
    process.exit(1);
}, 1000 * MOST);

const folder = mkdtempSync(`${tmpdir()}/desk-`);
const page = await browser(command, folder);
let held = 0;
const wrong = [];
function hold(what, is, due = true) {
    held += 1;
    if (is !== due) wrong.push(`${what}: ${JSON.stringify(is)} and not ${JSON.stringify(due)}`);
}

// ---- the page, and what is asked of it

const url = pathToFileURL(file).href;
const requests = [];
page.on("Network.requestWillBeSent", ({ request }) => requests.push(request.url));
page.on("Network.webSocketCreated", (socket) => requests.push(socket.url));
page.on("Runtime.exceptionThrown", ({ exceptionDetails }) => wrong.push(exceptionDetails.exception?.description ?? exceptionDetails.text));
page.on("Log.entryAdded", ({ entry }) => entry.level === "error" && wrong.push(entry.text));
for (const domain of ["Page", "Runtime", "Network", "Log"]) await page.tell(`${domain}.enable`);

const window = (width, height = 1000) => page.tell("Emulation.setDeviceMetricsOverride", { width, height, deviceScaleFactor: 1, mobile: false });
const scheme = (value) => page.tell("Emulation.setEmulatedMedia", { features: [{ name: "prefers-color-scheme", value }] });
const text = (id) => page.ask(`document.getElementById(${JSON.stringify(id)}).textContent`);
const click = (selector) => page.ask(`document.querySelector(${JSON.stringify(selector)}).click()`);
const says = (id, part) => page.until(`document.getElementById(${JSON.stringify(id)}).textContent.includes(${JSON.stringify(part)})`);
const example = (name) => click(`[data-example="${name}"]`);
const asked = (...words) => execFileSync(desk, words, { encoding: "utf8", cwd: root });

/** Types in place of a part of a field's text, as a person does: the part is selected, and keys are pressed. */
async function typeOver(id, part, other) {
    const there = await page.ask(`(() => {
        const field = document.getElementById(${JSON.stringify(id)});
        const at = field.value.indexOf(${JSON.stringify(part)});
        field.focus();
        field.setSelectionRange(at, at + ${part.length});
        return at >= 0;
    })()`);
    hold(`${id} has ${part}`, there);
    await page.type(other);
}

/** Puts a whole text into a field. */
const fill = (id, whole) => page.ask(`(() => {
    const field = document.getElementById(${JSON.stringify(id)});
    field.value = ${JSON.stringify(whole)};
    field.dispatchEvent(new Event("input"));
})()`);

const seats = () => page.ask(`[...document.querySelectorAll("#seats b")].map((seat) => seat.textContent).join("")`);

/** Waits until the odds are those of the question at the seats. */
const reckoned = () => page.until(`document.getElementById("odds").dataset.asked === [...document.querySelectorAll("#seats b")].map((seat) => seat.textContent).join("") + " " + document.getElementById("question").value`);

/** Moves the slider. */
const nights = (many) => page.ask(`(document.getElementById("nights").value = ${many}, document.getElementById("nights").dispatchEvent(new Event("input")))`);

/** Clicks seats until they are so. */
const seat = (due) => page.ask(`(() => {
    for (const [i, role] of [...${JSON.stringify(due)}].entries()) {
        for (let clicks = 0; document.querySelectorAll("#seats b")[i].textContent !== role; clicks += 1) {
            if (clicks > 8) throw new Error("no click leads to " + role);
            document.querySelectorAll("#seats button")[i].click();
        }
    }
})()`);

async function screenshot(name) {
    // beyond the window there is no scroll bar, and what it took is the page's
    const { cssContentSize: size } = await page.tell("Page.getLayoutMetrics");
    const clip = { x: 0, y: 0, width: await page.ask("innerWidth"), height: size.height, scale: 1 };
    const { data } = await page.tell("Page.captureScreenshot", { format: "png", captureBeyondViewport: true, clip });
    writeFileSync(`${out}/${name}.png`, Buffer.from(data, "base64"));
}

// ---- what is held

async function wrongAndMended() {
    await example("card-a");
    await says("card-says", "Taken: probabilistic, 3 seats, roles 0 to 2, 2 statements.");
    await typeOver("card", "(s2=0 | s3=0)", "(s2=0)");
    await says("card-says", "Line 4, column 11: the group leaves out seat 3");
    await says("card-says", "Hint: write (s2=0 & s3=0)");
    await says("card-says", "refused 6 60");
    hold("underlined", await page.ask(`document.querySelector("#card-editor mark").textContent`), "(s2=0)");
    hold("invalid", await page.ask(`document.getElementById("card").getAttribute("aria-invalid")`), "true");
    hold("the last panel stays, and it says so", await page.ask(`document.querySelector("#panel-heading .stale").checkVisibility() && document.getElementById("panel").checkVisibility()`));
    await click("#go");
    hold("selected", await page.ask(`(() => { const field = document.getElementById("card"); return field.value.slice(field.selectionStart, field.selectionEnd); })()`), "(s2=0)");
    await screenshot("refused");
    await page.type("(s2=0 | s3=0)");
    await says("card-says", "Taken: ");
    hold("nothing underlined", await page.ask(`document.querySelectorAll("#card-editor mark").length`), 0);
    hold("valid", await page.ask(`document.getElementById("card").getAttribute("aria-invalid")`), "false");
    hold("no note", await page.ask(`[...document.querySelectorAll(".stale")].every((note) => note.hidden)`));

    // one key after the other, and a character that takes more bytes than one
    await typeOver("card", "1/2:(s1'=1)", "");
    for (const key of "0,5:(s1\u2019=1)") await page.type(key);
    await says("card-says", "\u2019 (U+2019) stands here");
    hold("underlined", await page.ask(`document.querySelector("#card-editor mark").textContent`), "\u2019");
    await typeOver("card", "\u2019", "'");
    await says("card-says", "a comma stands in 0,5, and a weight is 0, 1 or a fraction");
    await typeOver("card", "0,5", "0.5");
    await says("card-says", "Line 4, column 28: 0.5 is a decimal, and a weight is 0, 1 or a fraction");
    await says("card-says", "Hint: write 1/2");
    await says("card-says", "refused 17 77");
    hold("underlined", await page.ask(`document.querySelector("#card-editor mark").textContent`), "0.5");
    await typeOver("card", "0.5", "1/2");
    await says("card-says", "Taken: ");

    // the end of the text, and the seats' line
    await fill("card", "probabilistic\nmodule");
    await says("card-says", "Line 2, column 7: the card ends here, and process1 was due");
    await fill("card", readFileSync(`${root}/examples/leader-election`, "utf8"));
    await says("card-says", "Taken: nondeterministic");
    hold("the seats' line is taken", await seats(), "011");
    await click("#seats button");
    hold("and follows a click", await page.ask(`document.getElementById("card").value.split("\\n")[0]`), "111");
    await typeOver("card", "111", "11x");
    await says("card-says", "Line 1, column 3: x stands for seat 3, and a digit from 0 to 2 was due");
}

const digits = (count, top) => Array.from({ length: (top + 1) ** count }, (_, i) => i.toString(top + 1).padStart(count, "0"));

async function panels() {
    for (const name of [...EXAMPLES, NIGHT, "card-a-stuck"]) {
        const [line] = readFileSync(`${root}/examples/${name}`, "utf8").split("\n");
        await example(name.replace("-stuck", ""));
        await seat(line);
        hold(`panel of ${name}`, await text("bytes"), readFileSync(`${root}/examples/${name}.panel`, "utf8"));
    }
    for (const name of EXAMPLES) {
        const counts = readFileSync(`${root}/examples/${name}.panel`, "utf8").split("\n")[2].split(" ").slice(1).map(Number);
        const all = digits(counts.reduce((a, b) => a + b), counts.length - 1);
        const due = asked("panel", `examples/${name}`, ...all).split(/(?:^|\n)[0-9]+:\n/).slice(1);
        await example(name);
        for (const [i, seating] of all.entries()) {
            await seat(seating);
            hold(`${name} at ${seating}`, (await text("bytes")).trimEnd(), due[i].trimEnd());
        }
    }
}

/** The number that seats share: beside them, on the panel, kept by a shuffle, in the seats' line and in a question. */
async function shared() {
    await example(NIGHT);
    await says("card-says", "Taken: probabilistic, 5 seats, roles 0 to 2, g up to 1, 3 statements.");
    for (const seating of ["000111", "000110", "012120", "012121", "222111", "222110", "000001"]) {
        await seat(seating);
        hold(`${NIGHT} at ${seating}`, await text("bytes"), asked("panel", `examples/${NIGHT}`, seating));
    }
    await seat("000110");
    hold("it is told", await page.ask(`document.querySelector("#drawn h3").textContent`), "5 seats, probabilistic, g is 0");
    const told = (name) => page.ask(`[...document.querySelectorAll("#moves li")].map((row) => row.getAttribute("aria-label").replace(/: .*/, "")).join("; ")`).then((is) => hold(name, is, "no seat moves, g becomes 1; from role 0 to role 2, g becomes 1; from role 1 to role 2, g becomes 1"));
    await told("what becomes of it");
    await seat("222111");
    hold("and where nothing does", await page.ask(`document.querySelector("#moves li").getAttribute("aria-label")`), "no change: 1, 100%");
    await seat("000121");
    const was = await text("bytes");
    await click("#shuffle");
    const after = await seats();
    hold("it stays in a shuffle", after.at(-1), "1");
    hold("the same bytes", await text("bytes"), was);
    await click("#begin");
    hold("as the card begins", await seats(), "000001");
    await page.ask(`document.querySelector("#seats .shared").dispatchEvent(new MouseEvent("click", { shiftKey: true, bubbles: true }))`);
    hold("a click on it", await seats(), "000000");
    await page.ask(`document.getElementById("value").value = "1"`);
    await fill("question", "");
    await click("#put-shared");
    hold("a question about it", await page.ask(`document.getElementById("question").value`), "(g=1)");
    await says("question-says", "no at 00000, g 0");
    await fill("question", "(g=2)");
    await says("question-says", "the test is of the value 2 of g, and its highest is 1");
    // in the line before the card
    const card = readFileSync(`${root}/examples/${NIGHT}`, "utf8");
    await fill("card", card.replace("000111", "01201"));
    await says("card-says", "Line 1, column 1: 5 seats given, and one more digit was due behind them: the value of g");
    await fill("card", card.replace("000111", "012010"));
    await says("card-says", "Taken: ");
    hold("read from the line", await seats(), "012010");
    await click("#seats .shared");
    hold("and put there", await page.ask(`document.getElementById("card").value.split("\\n")[0]`), "012011");
    // a card without one has none
    await example("card-a");
    hold("no such button, no such question", await page.ask(`document.querySelectorAll("#seats .shared").length === 0 && document.getElementById("ask-shared").hidden`));
    await fill("question", "(g=1)");
    await says("question-says", "the card declares no g, so that a question cannot ask about it");
}

/** What is drawn says what the command says: a fraction and a percentage for each line. */
async function drawn() {
    for (const name of [...EXAMPLES, NIGHT]) {
        await example(name);
        const lines = asked("panel", "--chances", `examples/${name}`).split("\n");
        const due = lines.filter((line) => /^(stay|move)/.test(line)).map((line) => line.trim().split(/ +/).slice(-2).join(" "));
        const counts = lines[2].split(" ").slice(1);
        hold(`stacks of ${name}`, await page.ask(`[...document.querySelectorAll(".stack")].map((stack) => stack.children.length).join(" ")`), counts.join(" "));
        const tabs = await page.ask(`document.querySelectorAll("[role=tab]").length`);
        hold(`tabs of ${name}`, tabs, lines.filter((line) => /^choice/.test(line)).length);
        const shown = [];
        for (let tab = 0; tab < Math.max(tabs, 1); tab += 1) {
            if (tabs) await page.ask(`document.querySelectorAll("[role=tab]")[${tab}].click()`);
            shown.push(...await page.ask(`[...document.querySelectorAll("#moves li")].map((row) => row.getAttribute("aria-label").replace(/^.*: /, "").replace(", ", " "))`));
            const widths = await page.ask(`[...document.querySelectorAll("#moves .track span")].reduce((sum, bar) => sum + parseFloat(bar.style.width), 0)`);
            hold(`bars of ${name} come to a whole`, Math.abs(widths - 100) < 0.001);
        }
        hold(`chances of ${name}`, shown.join("; "), due.join("; "));
    }
    // choices by keys
    await example("leader-election");
    await page.ask(`document.querySelector("[role=tab]").focus()`);
    await page.press("ArrowRight");
    hold("the second choice", await page.ask(`document.querySelector("[role=tab][aria-selected=true]").textContent`), "Choice 4");
    hold("keeps the focus", await page.ask(`document.activeElement.id`), "choice-4");
}

async function shuffles() {
    await example("card-a");
    for (let i = 0; i < 5; i += 1) {
        const [before, was] = [await seats(), await text("bytes")];
        await click("#shuffle");
        const after = await seats();
        hold("another order", before !== after && [...before].sort().join("") === [...after].sort().join(""));
        hold("the same bytes", await text("bytes"), was);
        hold("and it says so", await text("shuffled"), `${before} became ${after}: all ${was.length} bytes of the panel are the same.`);
    }
    await click("#begin");
    await click("#shuffle");
    hold("no other order", await text("shuffled"), "All seats are in role 0: 000 has no other order.");
}

async function questions() {
    await example("card-a");
    await seat("012");
    for (const kind of ["all", "some", "none", "other", "one"]) {
        await page.ask(`document.getElementById("kind").value = ${JSON.stringify(kind)}, document.getElementById("role").value = "2"`);
        await click("#put");
        const question = await page.ask(`document.getElementById("question").value`);
        await says("question-says", `${asked("ask", "examples/card-a", "012", question).trim()} at 012`);
        held += 1;
    }
    await typeOver("question", "s3=2)", "s3=2");
    await says("question-says", "the question ends here, and | or ) was due");
    await fill("question", "(s2=0 | s3=0)");
    await says("question-says", "the group leaves out seat 1, and in a question there are no others");
    await fill("question", "(s1=0 | s2=0 | s3=0)");
    await says("question-says", "yes at 012");
    await seat("112");
    await says("question-says", "no at 112");
}

/** The curves as they are drawn: in parts of the way from 0% to 100%, how each is told from the other, and what stands beside them. */
const CURVES = `(() => {
    const [none, , , , whole] = [...document.querySelectorAll("#curve .grid")].map((line) => line.y1.baseVal.value);
    const curves = [...document.querySelectorAll("#curve polyline")].map((line) => {
        const kind = line.getAttribute("class");
        const [label] = document.querySelectorAll("#curve text." + kind);
        const marks = [...document.querySelectorAll("#curve ." + kind + ":not(polyline, text)")];
        return {
            kind, dashed: getComputedStyle(line).strokeDasharray !== "none", label: label?.textContent, at: label?.getBBox().y,
            marks: [...new Set(marks.map((mark) => mark.tagName))].join(), told: marks.map((mark) => mark.textContent).join("; "),
            heights: [...line.points].map(({ y }) => (none - y) / (none - whole)), places: [...line.points].map(({ x }) => x), marked: marks.length,
        };
    });
    const numbers = [...document.querySelectorAll("#curve text")].filter((text) => /^[0-9]+$/.test(text.textContent));
    const inside = [...document.querySelectorAll("#curve text")].every((text) => { const { x, y, width, height } = text.getBBox(); return x >= 0 && y >= 0 && x + width <= 640 && y + height <= 274; });
    return { curves, nights: numbers.map((text) => text.textContent).join(" "), inside };
})()`;

/** What an example starts with: a question that the fields beside it have written, and a curve that begins at 0 and rises. */
async function starts() {
    for (const [name, kind, role] of [["card-a", "some", "2"], ["leader-election", "one", "1"], ["coin-toss", "all", "3"], [NIGHT, "none", "0"]]) {
        await example(name);
        await reckoned();
        hold(`${name} starts with`, await page.ask(`document.getElementById("kind").value + " " + document.getElementById("role").value`), `${kind} ${role}`);
        const question = await page.ask(`document.getElementById("question").value`);
        await click("#put");
        hold(`the question of ${name}`, await page.ask(`document.getElementById("question").value`), question);
        const { curves } = await page.ask(CURVES);
        const { heights } = curves.find(({ kind }) => kind === "largest");
        hold(`the odds of ${name} begin at 0 and rise`, heights[0] === 0 && heights.at(-1) > 0.5);
    }
}

/** The curve's numbers are the command's, largest and smallest. */
async function odds() {
    for (const [name, seating, question] of [
        ["card-a", "000", "(s1=2 | s2=2 | s3=2)"],
        [NIGHT, "000111", "(s1!=1 & s2!=1 & s3!=1 & s4!=1 & s5!=1) & (g=1)"],
        ["leader-election", "011", "((s1=1 & s2!=1 & s3!=1) | (s1!=1 & s2=1 & s3!=1) | (s1!=1 & s2!=1 & s3=1))"],
    ]) {
        await example(name);
        await seat(seating);
        await fill("question", question);
        const read = (...words) => asked("odds", ...words, `examples/${name}`, seating, question, "12").trim().split("\n").map((line) => line.split(/ +/).slice(2, 4).join(" · "));
        const due = name === "leader-election" ? [read(), read("--smallest")] : [read()];
        await page.until(`document.getElementById("odds").dataset.asked === ${JSON.stringify(`${seating} ${question}`)}`);
        await page.until(`document.querySelectorAll("#odds-table tr").length === 14 && document.querySelectorAll("#curve polyline").length === ${due.length}`);
        const shown = await page.ask(`[...document.querySelectorAll("#odds-table tr")].slice(1).map((row) => [...row.querySelectorAll("td")].map((cell) => cell.textContent))`);
        hold(`odds of ${name}`, JSON.stringify(shown), JSON.stringify(due[0].map((_, night) => due.map((all) => all[night]))));
        const { curves, inside } = await page.ask(CURVES);
        for (const { kind, heights, places, marked } of curves) {
            const shown = due[kind === "smallest" ? 1 : 0].map(parseFloat);
            hold(`the curve of ${name}, ${kind}, is as high as its numbers`, heights.length === 13 && heights.every((height, night) => Math.abs(height - shown[night]) < 1e-6));
            hold(`and goes on evenly, with a mark for each night`, marked === 13 && places.every((place, night) => Math.abs(place - places[0] - (night * (places[12] - places[0])) / 12) < 1e-3));
        }
        hold(`texts beside the curve of ${name} are inside the drawing`, inside);
        await nights(3);
        hold(`nights of ${name}`, await page.ask(`document.querySelectorAll("#odds-table tr").length`), 5);
        hold(`said of ${name}`, (await text("odds-says")).startsWith("Within 3 nights: "));
        for (const [many, numbers] of [[1, "0 1"], [16, Array.from({ length: 17 }, (_, i) => i).join(" ")], [31, "0 2 4 6 8 10 12 14 16 18 20 22 24 26 28 31"], [32, Array.from({ length: 17 }, (_, i) => 2 * i).join(" ")]]) {
            await nights(many);
            hold(`numbers below ${many} nights`, (await page.ask(CURVES)).nights, numbers);
        }
        const last = asked("odds", `examples/${name}`, seating, question, "32").trim().split("\n").at(-1).split(/ +/).slice(2, 4).join(" · ");
        hold(`the last night of ${name}`, await page.ask(`document.querySelector("#odds-table tr:last-child td").textContent`), last);
        hold(`the slider ends there`, await page.ask(`document.getElementById("nights").max`), "32");
        await nights(12);
    }
    // without colours too: one line whole with discs, one dashed with diamonds, each with its name at its end and before its number
    const { curves } = await page.ask(CURVES);
    const told = curves.map(({ kind, dashed, marks, label }) => `${kind} ${dashed} ${marks} ${label}`).sort().join("; ");
    hold("curves are told apart", told, "largest false circle largest; smallest true path smallest");
    hold("and so are their numbers", await page.ask(`[...document.querySelectorAll("#odds-says .key")].map((key) => key.querySelector("polyline").getAttribute("class") + " " + key.nextSibling.textContent.split(" ")[0]).join("; ")`), "largest largest; smallest smallest");
    hold("it says what they are", (await text("odds-help")).endsWith("the largest, if every choice is made to bring it about, and the smallest, if every choice is made against it."));
    hold("a night is told at its mark", curves.find(({ kind }) => kind === "largest").told.startsWith("night 0: largest 0%; night 1: largest 50%; "));
    await screenshot("odds");
    // where both are the same, at the top and at the bottom, their names stand one above the other
    for (const [question, height, already] of [["(s1!=2 & s2!=2 & s3!=2)", 1, true], ["(s1=2 & s2=2 & s3=2)", 0, false]]) {
        await fill("question", question);
        await reckoned();
        const { curves, inside } = await page.ask(CURVES);
        const [large, small] = ["largest", "smallest"].map((due) => curves.find(({ kind }) => kind === due));
        hold(`${question} is flat`, [...large.heights, ...small.heights].every((is) => is === height));
        hold(`${question}: names apart, and inside`, small.at - large.at >= 14 && inside);
        hold(`${question} holds already`, (await text("odds-says")).startsWith("The question holds already, which counts from night 0 on. Within 12 nights: "), already);
    }
    // no odds of a question that is refused, or of none
    for (const question of ["(s1=2", ""]) {
        await fill("question", question);
        await page.until(`document.getElementById("odds").hidden`);
        held += 1;
    }
}

async function texts() {
    await example("leader-election");
    await click("#layout");
    hold("layout", await text("text-bytes"), asked("write", "examples/leader-election"));
    await click("#reduced");
    hold("reduced", await text("text-bytes"), asked("reduce", "examples/leader-election"));
    await click("#layout");
    await click("#use");
    hold("layout put in", await page.ask(`document.getElementById("card").value`), asked("write", "examples/leader-election"));
    await page.until(`!document.getElementById("layout").disabled`);
}

/** A file is opened, refused or taken, and what the editor has is saved. */
async function files() {
    const { root: { nodeId: whole } } = await page.tell("DOM.getDocument");
    const { nodeId } = await page.tell("DOM.querySelector", { nodeId: whole, selector: "#open" });
    const open = (path) => page.tell("DOM.setFileInputFiles", { nodeId, files: [path] });
    writeFileSync(`${folder}/wrong`, "\ufeffprobabilistic\n");
    await open(`${folder}/wrong`);
    await says("card-says", "Line 1, column 1: a byte order mark stands here");
    hold("no card, no panel", await page.ask(`document.getElementById("no-panel").checkVisibility() && !document.getElementById("panel").checkVisibility()`));
    hold("no card, no seats", await seats(), "");
    await page.until(`document.getElementById("odds").hidden`);
    hold("nothing to shuffle, write out or lay out", await page.ask(`["shuffle", "begin", "put", "layout", "reduced"].every((id) => document.getElementById(id).disabled)`));
    const stuck = readFileSync(`${root}/examples/card-a-stuck`, "utf8");
    await open(`${root}/examples/card-a-stuck`);
    await says("card-says", "Taken: probabilistic, 3 seats");
    hold("the file's text", await page.ask(`document.getElementById("card").value`), stuck);
    hold("the file's seats", await seats(), "012");
    hold("its panel", await text("bytes"), readFileSync(`${root}/examples/card-a-stuck.panel`, "utf8"));
    await page.ask(`document.querySelectorAll("#seats button")[2].dispatchEvent(new MouseEvent("click", { shiftKey: true, bubbles: true }))`);
    hold("with Shift into the role before", await seats(), "011");
    await page.tell("Browser.setDownloadBehavior", { behavior: "allow", downloadPath: folder });
    await click("#save");
    const saved = `${folder}/card-a-stuck`;
    for (let tries = 0; tries < 100 && !existsSync(saved); tries += 1) await new Promise((resolve) => setTimeout(resolve, 50));
    hold("saved under its name", existsSync(saved) && readFileSync(saved, "utf8"), stuck.replace("012", "011"));
}

// ---- for everybody

/** Text whose contrast with what is behind it is less than 4.5. */
const FAINT = `(() => {
    const channels = (colour) => colour.match(/[\\d.]+/g).map(Number);
    const bright = ([r, g, b]) => [r, g, b].map((c) => (c /= 255, c <= 0.04045 ? c / 12.92 : ((c + 0.055) / 1.055) ** 2.4)).reduce((sum, c, i) => sum + c * [0.2126, 0.7152, 0.0722][i], 0);
    const behind = (node) => {
        for (; node; node = node.parentElement) {
            const colour = channels(getComputedStyle(node).backgroundColor);
            if (colour[3] === undefined || colour[3] === 1) return colour;
            if (colour[3] !== 0) throw new Error("half a colour behind " + node.outerHTML.slice(0, 80));
        }
        return channels(getComputedStyle(document.documentElement).backgroundColor);
    };
    const ratio = (one, other) => { const [a, b] = [bright(one), bright(other)].sort((x, y) => y - x); return (a + 0.05) / (b + 0.05); };
    const faint = [];
    let seen = 0;
    for (const node of document.querySelectorAll("body *")) {
        const own = [...node.childNodes].some((child) => child.nodeType === 3 && child.data.trim()) || node.matches("textarea, select");
        const style = getComputedStyle(node);
        if (!own || !node.checkVisibility({ visibilityProperty: true }) || node.closest(".under") || style.opacity === "0") continue;
        seen += 1;
        const found = ratio(channels(node instanceof SVGElement ? style.fill : style.color), behind(node));
        if (found < 4.5) faint.push(node.tagName + "." + node.getAttribute("class") + " " + node.textContent.trim().slice(0, 20) + " " + found.toFixed(2));
    }
    // the curves themselves
    for (const line of document.querySelectorAll("#curve polyline, .key polyline")) {
        const found = ratio(channels(getComputedStyle(line).stroke), behind(line));
        if (found < 4.5) faint.push("curve " + line.getAttribute("class") + " " + found.toFixed(2));
    }
    // what is typed over what is underlined
    for (const mark of document.querySelectorAll(".under mark")) {
        const found = ratio(channels(getComputedStyle(mark.closest(".sheet").querySelector("textarea")).color), behind(mark));
        if (found < 4.5) faint.push("underlined " + found.toFixed(2));
    }
    return { seen, faint };
})()`;

/** What is underlined lies just under what is typed: both have one font, one size and one place. */
const LIKE = `[...document.querySelectorAll(".sheet")].every((sheet) => {
    const [under, field] = [sheet.querySelector(".under"), sheet.querySelector("textarea")];
    const same = ["fontFamily", "fontSize", "lineHeight", "letterSpacing", "paddingTop", "paddingLeft", "tabSize", "whiteSpace", "overflowWrap"];
    const place = (node) => JSON.stringify([node.getBoundingClientRect().x + node.clientLeft, node.getBoundingClientRect().y + node.clientTop]);
    return same.every((name) => getComputedStyle(under)[name] === getComputedStyle(field)[name]) && place(under) === place(field);
})`;

const sideways = () => page.ask("document.documentElement.scrollWidth - document.documentElement.clientWidth");

async function forEverybody() {
    const many = 16;
    const modules = Array.from({ length: many - 1 }, (_, i) => `module process${i + 2} = process1 [s1=s${i + 2}, s${i + 2}=s1] endmodule\n`).join("");
    const others = Array.from({ length: many - 1 }, (_, i) => `s${i + 2}=7`).join(" | ");
    const large = `nondeterministic\nmodule process1\ns1 : [0..7] init 0;\n[] s1=0 & (${others}) -> 1/11:(s1'=1) + 10/11:(s1'=7);\n[] s1=0 -> 1:(s1'=7);\nendmodule\n${modules}`;
    const states = {
        "card A": () => example("card-a"),
        "a refused card": () => fill("card", "probabilistic\nmodul process1\n"),
        choices: () => example("leader-election"),
        "the reduced text": () => click("#reduced"),
        "a shared number": () => example(NIGHT),
        "a refused question": () => fill("question", "(s2=0 | s3=0)"),
        "sixteen seats": async () => {
            await fill("card", `0123456701234567\n${large}`);
            await says("card-says", "16 seats, roles 0 to 7");
            await page.ask(`document.getElementById("kind").value = "one"`);
            await click("#put");
            await says("question-says", "no at 0123456701234567");
            await says("odds-says", "with 16 seats the highest role may be 2, and with the roles 0 to 7 there may be 4 seats");
            hold("no slider, curve or table without odds", await page.ask(`["odds-help", "odds-nights", "curve", "odds-all"].every((id) => document.getElementById(id).hidden)`));
            await says("odds-says", "16 seats can be spread over the roles 0 to 7 in 245,157 ways, and odds are reckoned for at most 512");
        },
    };
    await page.ask(`document.getElementById("odds-all").open = true`);
    for (const [name, reach] of Object.entries(states)) {
        await window(768);
        await reach();
        await reckoned();
        if (name === "a refused card") await says("card-says", "modul stands here, and module or global was due");
        if (name === "a refused question") await says("question-says", "refused 26 0");
        hold(`${name}, 768: sideways`, await sideways(), 0);
        for (const colours of ["dark", "light"]) {
            await scheme(colours);
            const { seen, faint } = await page.ask(FAINT);
            hold(`${name}, ${colours}: contrast`, faint.join("; "), "");
            hold(`${name}: texts`, seen > 20);
        }
        hold(`${name}: what is underlined lies under what is typed`, await page.ask(LIKE));
        await window(1400);
        hold(`${name}, 1400: sideways`, await sideways(), 0);
    }
    await screenshot("sixteen-seats");
    await example("leader-election");
    await reckoned();
    await page.ask(`document.getElementById("odds-all").open = false`);
    await screenshot("light-1400");
    await window(768);
    await scheme("dark");
    await screenshot("dark-768");
    await scheme("light");
    for (const id of ["card-says", "question-says", "shuffled", "odds-says"]) {
        hold(`${id} is live`, await page.ask(`document.getElementById("${id}").matches("[role=status][aria-live=polite]")`));
    }
    hold("fields are named", await page.ask(`[...document.querySelectorAll("input, select, textarea")].every((field) => field.labels.length > 0)`));
    hold("fields are described", await page.ask(`["card", "question"].every((id) => document.getElementById(id).getAttribute("aria-describedby") === id + "-says")`));
}

async function byTab() {
    await window(1400);
    await example("leader-election");
    await fill("card", (await page.ask(`document.getElementById("card").value`)).replace("[] s1=2", "[] s1=3"));
    await says("card-says", "the statement is of role 3");
    for (const refused of [true, false]) {
        if (!refused) {
            await example("leader-election");
            await click("#layout");
        }
        await page.ask(`document.activeElement.blur(), window.reached = new Set(), document.addEventListener("focusin", ({ target }) => window.reached.add(target))`);
        const due = await page.ask(`(window.due = [...document.querySelectorAll("button, input, select, textarea, summary, [tabindex]")].filter((control) => !control.disabled && control.checkVisibility({ contentVisibilityAuto: true }))).length`);
        for (let i = 0; i < due + 5; i += 1) await page.press("Tab");
        hold("reached by Tab", await page.ask(`window.due.filter((control) => !window.reached.has(control)).map((control) => control.id || control.textContent).join(", ")`), "");
        hold("controls", due >= 18);
    }
    // and what is reached is clicked by keys
    await page.ask(`document.querySelector("#seats button").focus()`);
    await page.press(" ");
    hold("a seat by the space bar", await seats(), "111");
    await page.press("Tab", SHIFT);
    await page.press("Tab");
    await page.press("Enter");
    hold("a seat by Enter", await seats(), "211");
    await reckoned();
    await page.ask(`document.getElementById("nights").focus()`);
    await page.press("ArrowRight");
    hold("a night more by an arrow", `${await text("nights-shown")}, ${(await text("odds-says")).slice(0, 16)}`, "13, Within 13 nights");
    await page.press("ArrowLeft");
    hold("and back", await text("nights-shown"), "12");
}

try {
    await window(1400);
    await scheme("light");
    await page.tell("Page.navigate", { url });
    await page.until("document.documentElement?.dataset.ready === 'yes'", 30);
    await screenshot("desk");
    for (const part of [starts, wrongAndMended, panels, shared, drawn, shuffles, questions, odds, texts, files, forEverybody, byTab]) await part();
    hold("requests", requests.join(" "), url);
    // a request would be stopped, and the browser would say so
    const before = wrong.length;
    await page.ask(`fetch("http://127.0.0.1:9/").catch(() => {})`);
    const stopped = wrong.splice(before).every((fault) => /Content Security Policy/.test(fault));
    hold("a request is stopped", stopped && requests.every((request) => request === url));
} catch (fault) {
    wrong.push(String(fault));
}
await page.close();
rmSync(folder, { recursive: true, force: true });
for (const fault of wrong.slice(0, 10)) console.log(`desk: ${fault}`);
console.log(`desk: the page in ${command.split("/").at(-1)}: ${held} held, ${wrong.length} wrong, in ${Math.ceil((Date.now() - began) / 1000)} s`);
process.exit(wrong.length === 0 && held >= 240 ? 0 : 1);
