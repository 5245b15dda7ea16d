"use strict";
// The calls of gamefile for a page. `await gamefile.startEngine()` gives an engine, whose calls run in a
// worker, so that the page answers meanwhile. Bytes are of type Uint8Array, and are copied. The module and
// the worker are in built.js, and nothing is fetched.

// What all errors of the engine are.
gamefile.Failure = class Failure extends Error {
    get name() {
        return this.constructor.name;
    }
};

// A file is refused: its code, such as "E9", the range of bytes, what is wrong, and, in `hint`, a hint that is
// true wherever the code occurs, or null. Of two files, `which` is 0 for the first and 1 for the second.
gamefile.Refusal = class Refusal extends gamefile.Failure {};
// A tree has no table: `profile` is the first that overflows, from 1, or null if there are too many.
gamefile.TableError = class TableError extends gamefile.Failure {};
gamefile.OutOfMemory = class OutOfMemory extends gamefile.Failure {};
// A file is longer than the program reads. Its `code` is "E1".
gamefile.TooLong = class TooLong extends gamefile.Failure {};
// The call was running, or waiting, when the engine was stopped.
gamefile.Stopped = class Stopped extends gamefile.Failure {};
// The browser has no memory of 64 bits for WebAssembly.
gamefile.Unsupported = class Unsupported extends gamefile.Failure {};

gamefile.LONGEST = 16777216;

gamefile.Engine = class Engine {
    #code;
    #limit;
    #worker = null;
    #waiting = new Map();
    #asked = 0;

    // A call may take `limit` bytes of memory.
    static async start(code, limit) {
        const engine = new Engine(code, limit);
        engine.version = await engine.#ask("version", []);
        return engine;
    }

    constructor(code, limit) {
        this.#code = code;
        this.#limit = limit;
    }

    // {kind: "tree" | "table"}
    check(bytes) {
        return this.#ask("check", [bytes]);
    }

    // The canonical text. With `names: false`, the title, the comment, and the names of nodes, information
    // sets and outcomes do not count.
    canonical(bytes, { names = true } = {}) {
        return this.#ask("canonical", [bytes], { names });
    }

    // The SHA-256 digest of the canonical text, as text.
    hash(bytes, { names = true } = {}) {
        return this.#ask("hash", [bytes], { names });
    }

    // A tree as a strategic file, in its strategic form or its reduced form; for a strategic file its
    // canonical text.
    table(bytes, { reduced = false } = {}) {
        return this.#ask("table", [bytes], { reduced });
    }

    // Whether two files mean the same game.
    same(first, second, { names = true } = {}) {
        return this.#ask("same", [first, second], { names });
    }

    // Which numbers of two trees correspond, as a list of {player, from, to}: `player` is null for an
    // outcome and 0 for chance. It is null if the files do not mean the same game.
    renumbering(first, second) {
        return this.#ask("renumbering", [first, second]);
    }

    // What the program's --explain tells of a file with this name; null if it is not refused.
    explain(bytes, name) {
        return this.#ask("explain", [bytes], { name });
    }

    // Ends what is running and what waits for it. The next call starts another worker.
    stop() {
        this.#end(() => new gamefile.Stopped("the call was stopped"));
    }

    async #ask(call, inputs, options) {
        if (!inputs.every(it => it instanceof Uint8Array)) throw new TypeError("a file is a Uint8Array");
        if (inputs.some(it => it.length > gamefile.LONGEST)) {
            const message = "the file is larger than 16,777,216 bytes, the largest size that the program reads";
            throw Object.assign(new gamefile.TooLong(message), { code: "E1" });
        }
        this.#worker ??= this.#started();
        const id = this.#asked++;
        return new Promise((resolve, reject) => {
            this.#waiting.set(id, { resolve, reject });
            this.#worker.postMessage({ id, call, inputs, options });
        });
    }

    #started() {
        // A page that was opened as a file may not load a worker from another.
        const source = URL.createObjectURL(new Blob([gamefile.worker], { type: "text/javascript" }));
        const worker = new Worker(source);
        URL.revokeObjectURL(source);
        worker.onmessage = ({ data }) => this.#answered(data);
        worker.onerror = event => this.#end(() => new Error(`the worker failed: ${event.message}`));
        worker.postMessage({ code: this.#code, limit: this.#limit });
        return worker;
    }

    #answered({ id, value, fault }) {
        const { resolve, reject } = this.#waiting.get(id);
        this.#waiting.delete(id);
        if (fault === undefined) {
            resolve(value);
        } else {
            const { name, message, ...rest } = fault;
            reject(Object.assign(new (gamefile[name] ?? Error)(message), rest));
        }
    }

    #end(error) {
        if (this.#worker !== null) {
            this.#worker.terminate();
            // It may have sent an answer before that.
            this.#worker.onmessage = this.#worker.onerror = null;
            this.#worker = null;
        }
        const waiting = [...this.#waiting.values()];
        this.#waiting.clear();
        for (const { reject } of waiting) reject(error());
    }
};

// Compiles the module and gives an engine.
gamefile.startEngine = async ({ limit = 2 ** 32 } = {}) => {
    const bytes = Uint8Array.from(atob(gamefile.module), it => it.charCodeAt(0));
    let code;
    try {
        code = await WebAssembly.compile(bytes);
    } catch (error) {
        throw new gamefile.Unsupported(`this browser cannot run the module: ${error.message}`);
    }
    return gamefile.Engine.start(code, limit);
};
