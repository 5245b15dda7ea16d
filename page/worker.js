"use strict";
// Runs the calls of the module, one after another, beside the page. The first message holds the compiled
// module and the most bytes of memory that a call may take. Each later one, { id, call, inputs, options },
// is answered by { id, value } or by { id, fault }, whose `name` is that of an error in engine.js.

// What a call returns, as in library/gamefile.h.
const OK = 0, DIFFERENT = 1, REFUSED = 2, NOMEM = 5, TOO_MANY_PROFILES = 6, OVERFLOW = 7, TOO_SMALL = 8;
const NO_NAMES = 1, REDUCED = 2;
// The bytes of a fault, and of a pair of numbers.
const FAULT = 24, PAIR = 16;
// The first room for a table, which may be far longer than its tree. Few are longer, and these take twice
// the time. What is not written of it costs nothing.
const ROOM = 16 * 1024 * 1024;
// An instance that has more memory is given up after its call, so that the browser gets it back.
const MOST_KEPT = 64 * 1024 * 1024;

// An address in the module's memory, which has 64 bits, is a BigInt. A place for bytes is a pair of its
// address and its length, as a call takes them.
class Calls {
    constructor(code, limit) {
        this.code = code;
        this.limit = BigInt(limit);
        this.exports = null;
    }

    // Makes a call. After a fault of the machine the module's memory may be half written, so it is not
    // used again.
    make(call, inputs, options) {
        let isWhole = false;
        try {
            this.begin();
            const value = this[call](...inputs, options);
            isWhole = true;
            return value;
        } catch (error) {
            isWhole = error.name === "Refusal" || error.name === "TableError";
            // What the browser throws if it has no memory, for the module or for a copy of an answer.
            throw error instanceof RangeError ? outOfMemory() : error;
        } finally {
            if (!isWhole || this.exports.memory.buffer.byteLength > MOST_KEPT) this.exports = null;
        }
    }

    // Frees all that earlier calls have taken.
    begin() {
        this.exports ??= new WebAssembly.Instance(this.code).exports;
        this.exports.page_begin(this.limit);
        this.fault = this.take(FAULT);
    }

    take(size) {
        const at = this.exports.page_take(BigInt(size));
        if (at === 0n) throw outOfMemory();
        return at;
    }

    room(size) {
        return [this.take(size), BigInt(size)];
    }

    put(bytes) {
        const place = this.room(bytes.length);
        this.bytes(...place).set(bytes);
        return place;
    }

    // The bytes of a place, until the module's memory grows.
    bytes(at, length) {
        return new Uint8Array(this.exports.memory.buffer, Number(at), Number(length));
    }

    u32(at, index = 0) {
        return new DataView(this.exports.memory.buffer).getUint32(Number(at) + 4 * index, true);
    }

    u64(at, index = 0) {
        return Number(new DataView(this.exports.memory.buffer).getBigUint64(Number(at) + 8 * index, true));
    }

    // A text that ends in a zero byte, or null.
    text(at) {
        if (at === 0n) return null;
        const all = new Uint8Array(this.exports.memory.buffer);
        return new TextDecoder().decode(all.slice(Number(at), all.indexOf(0, Number(at))));
    }

    message(code, expected) {
        return this.text(this.exports.page_message(code, expected));
    }

    refusal(which) {
        const code = this.u32(this.fault), expected = this.u32(this.fault, 1);
        return {
            name: "Refusal", code: `E${code}`, start: this.u64(this.fault, 1), end: this.u64(this.fault, 2), which,
            message: this.message(code, expected), hint: this.text(this.exports.page_hint(code, expected)),
        };
    }

    // Passes on OK, and throws what another status says.
    pass(status, { which, profile } = {}) {
        switch (status) {
            case OK: return;
            case REFUSED: throw this.refusal(which === undefined ? 0 : this.u32(which));
            case NOMEM: throw outOfMemory();
            case TOO_MANY_PROFILES: throw tableError(null);
            case OVERFLOW: throw tableError(this.u64(profile));
            default: throw new Error(`a call of the module returned ${status}`);
        }
    }

    // The answer of a call that fills a place of items of this size, and says how many it needs. It is
    // made again if they are more than `count`.
    filled(size, count, call, places) {
        const needed = this.take(8);
        for (;;) {
            const at = this.take(size * count);
            const status = call(at, BigInt(count), needed);
            if (status !== TOO_SMALL) {
                this.pass(status, places);
                return { at, count: this.u64(needed) };
            }
            count = this.u64(needed);
        }
    }

    // As `filled`, for a text.
    written(count, call, places) {
        const text = this.filled(1, count, call, places);
        return this.bytes(text.at, text.count).slice();
    }

    version() {
        return this.text(this.exports.page_version());
    }

    check(input) {
        const kind = this.take(4);
        this.pass(this.exports.gamefile_c_check(...this.put(input), kind, this.fault));
        return { kind: this.u32(kind) === 1 ? "tree" : "table" };
    }

    // What --explain tells of a file with this name that is refused; null if it is not refused.
    explain(input, { name }) {
        const named = new TextEncoder().encode(name), file = this.put(input), called = this.put(named);
        let isRefused = false;
        const text = this.filled(1, named.length + 1024, (...out) => {
            const status = this.exports.gamefile_c_explain(...file, ...called, ...out, this.fault);
            isRefused = status === REFUSED;
            return isRefused ? OK : status;
        });
        return isRefused ? new TextDecoder().decode(this.bytes(text.at, text.count)) : null;
    }

    canonical(input, options) {
        const file = this.put(input), flags = flagsOf(options);
        // A text is seldom longer.
        return this.written(input.length + (input.length >> 3) + 4096, (...out) =>
            this.exports.gamefile_c_canonical(...file, flags, ...out, this.fault));
    }

    hash(input, options) {
        const file = this.put(input), flags = flagsOf(options);
        const digits = this.written(64, (...out) =>
            this.exports.gamefile_c_hash(...file, flags, ...out, this.fault));
        return new TextDecoder().decode(digits);
    }

    table(input, options) {
        const file = this.put(input), flags = flagsOf(options), profile = this.take(8);
        return this.written(ROOM, (...out) =>
            this.exports.gamefile_c_table(...file, flags, ...out, this.fault, profile), { profile });
    }

    same(first, second, options) {
        const which = this.take(4), files = [...this.put(first), ...this.put(second)];
        const status = this.exports.gamefile_c_same(...files, flagsOf(options), this.fault, which);
        if (status === DIFFERENT) return false;
        this.pass(status, { which });
        return true;
    }

    renumbering(first, second) {
        const which = this.take(4), files = [...this.put(first), ...this.put(second)];
        let isSame = true;
        // Files have no more pairs than that.
        const found = this.filled(PAIR, (first.length >> 3) + 1, (...out) => {
            const status = this.exports.gamefile_c_renumbering(...files, ...out, this.fault, which);
            isSame = status !== DIFFERENT;
            return isSame ? status : OK;
        }, { which });
        return isSame ? Array.from({ length: found.count }, (_, index) => this.pair(found.at, index)) : null;
    }

    // The pair at this index: its kind, which is 1 for a set, its player, and its two numbers.
    pair(at, index) {
        const [kind, player, from, to] = [0, 1, 2, 3].map(part => this.u32(at, 4 * index + part));
        return { player: kind === 1 ? player : null, from, to };
    }
}

function flagsOf({ names = true, reduced = false } = {}) {
    return (names ? 0 : NO_NAMES) | (reduced ? REDUCED : 0);
}

function outOfMemory() {
    return { name: "OutOfMemory", message: "out of memory" };
}

// In the program's words.
function tableError(profile) {
    const message = profile === null
        ? "the strategic form has more than 1,048,576 strategy profiles"
        : `the expected payoffs at profile ${profile} cannot be worked out within 127 bits`;
    return { name: "TableError", profile, message };
}

let calls = null;

self.onmessage = ({ data }) => {
    if (calls === null) {
        calls = new Calls(data.code, data.limit);
        return;
    }
    const { id, call, inputs, options } = data;
    try {
        const value = calls.make(call, inputs, options);
        self.postMessage({ id, value }, value instanceof Uint8Array ? [value.buffer] : []);
    } catch (error) {
        // An Error has its texts where a copy does not go.
        self.postMessage({ id, fault: error instanceof Error ? { name: "Error", message: error.message } : error });
    }
};
