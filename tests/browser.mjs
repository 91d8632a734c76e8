// Chromium without a window, driven by its own protocol through two pipes: nothing beside node and the browser is needed.
import { spawn } from "node:child_process";

const WORDS = [
    "--headless=new", "--remote-debugging-pipe", "--no-first-run", "--no-default-browser-check", "--disable-gpu", "--disable-dev-shm-usage",
    "--disable-background-networking", "--disable-component-update", "--disable-sync", "--disable-extensions", "--mute-audio",
    // as root a browser starts only so, and in a container
    "--no-sandbox",
];

/** Starts a browser with its own folder; gives a page that can be asked and told things. */
export async function browser(command, folder) {
    const child = spawn(command, [...WORDS, `--user-data-dir=${folder}`, "about:blank"], { stdio: ["ignore", "ignore", "ignore", "pipe", "pipe"] });
    const [, , , to, from] = child.stdio;
    const waiting = new Map();
    const listeners = [];
    let next = 1;
    let rest = "";
    const ended = new Promise((resolve) => child.on("exit", resolve));
    from.setEncoding("utf8");
    from.on("data", (data) => {
        const parts = (rest + data).split("\0");
        rest = parts.pop();
        for (const message of parts.map((part) => JSON.parse(part))) {
            if (message.id === undefined) listeners.forEach((listener) => listener(message));
            else {
                const { resolve, reject, method } = waiting.get(message.id);
                waiting.delete(message.id);
                if (message.error) reject(new Error(`${method}: ${message.error.message}`));
                else resolve(message.result);
            }
        }
    });
    const fail = () => waiting.forEach(({ reject, method }) => reject(new Error(`${method}: the browser ended`)));
    child.on("exit", fail);
    child.on("error", fail);
    to.on("error", fail);

    const send = (method, params = {}, sessionId = undefined) => new Promise((resolve, reject) => {
        const id = next++;
        waiting.set(id, { resolve, reject, method });
        to.write(`${JSON.stringify({ id, method, params, sessionId })}\0`);
    });

    const { targetId } = await send("Target.createTarget", { url: "about:blank" });
    const { sessionId } = await send("Target.attachToTarget", { targetId, flatten: true });
    const tell = (method, params) => send(method, params, sessionId);
    const on = (method, listener) => listeners.push((message) => message.method === method && message.sessionId === sessionId && listener(message.params));

    /** What an expression is worth in the page. */
    async function ask(expression) {
        const { result, exceptionDetails } = await tell("Runtime.evaluate", { expression, awaitPromise: true, returnByValue: true });
        if (exceptionDetails) throw new Error(`${expression}: ${exceptionDetails.exception?.description ?? exceptionDetails.text}`);
        return result.value;
    }

    /** Waits until an expression holds in the page. */
    async function until(expression, seconds = 10) {
        const end = Date.now() + 1000 * seconds;
        while (!(await ask(expression))) {
            if (Date.now() > end) throw new Error(`not so after ${seconds} s: ${expression}`);
            await new Promise((resolve) => setTimeout(resolve, 20));
        }
    }

    async function press(key, modifiers = 0) {
        const code = { Tab: 9, Enter: 13, ArrowRight: 39, ArrowLeft: 37, " ": 32 }[key];
        const text = { Enter: "\r", " ": " " }[key];
        await tell("Input.dispatchKeyEvent", { type: text ? "keyDown" : "rawKeyDown", key, code: key === " " ? "Space" : key, windowsVirtualKeyCode: code, modifiers, text });
        await tell("Input.dispatchKeyEvent", { type: "keyUp", key, windowsVirtualKeyCode: code, modifiers });
    }

    const type = (text) => tell("Input.insertText", { text });

    async function close() {
        await Promise.race([send("Browser.close").catch(() => {}), ended]);
        const stopped = await Promise.race([ended.then(() => true), new Promise((resolve) => setTimeout(() => resolve(false), 3000))]);
        if (!stopped) child.kill("SIGKILL");
    }

    return { tell, on, ask, until, press, type, close };
}
