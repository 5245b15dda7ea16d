"use strict";
// The files that are open, and how they come in and go out: opened, dropped, pasted, saved and copied. The bytes of
// a file are kept as they are.

// A file, and what was answered about it. `state` is waiting, valid, refused or failed; `kind` is "tree" or
// "table" if it is valid.
class GameFile {
    constructor(name, bytes) {
        this.name = name;
        this.setBytes(bytes);
    }

    setBytes(bytes) {
        Object.assign(this, { bytes, state: "waiting", kind: null, refusal: null, explanation: "", failure: null });
        this.answers = new Map();
    }

    // An answer that is asked for once; one that failed, or was not waited for, is asked for again.
    answer(key, signal, ask) {
        const { answers } = this;
        if (!answers.has(key)) {
            const asked = ask(), forget = () => answers.get(key) === asked && answers.delete(key);
            answers.set(key, asked);
            signal.addEventListener("abort", forget);
            asked.then(() => signal.removeEventListener("abort", forget), forget);
        }
        return answers.get(key);
    }

    canonical(calls, signal, names = true) {
        const ask = () => calls.run(signal, "canonical", this.bytes, { names });
        return this.answer(names ? "canonical" : "plain", signal, ask);
    }

    hash(calls, signal, names = true) {
        const ask = () => calls.run(signal, "hash", this.bytes, { names });
        return this.answer(names ? "hash" : "plain hash", signal, ask);
    }

    table(calls, signal, reduced) {
        if (this.kind === "table") return this.canonical(calls, signal);
        const ask = () => calls.run(signal, "table", this.bytes, { reduced });
        return this.answer(reduced ? "reduced" : "table", signal, ask);
    }

    tree(calls, signal) {
        return this.answer("tree", signal, async () => readTree(await this.canonical(calls, signal)));
    }

    // Its name without the ending.
    get stem() {
        return this.name.replace(/\.[en]fg$/i, "") || "game";
    }
}

// Coming in -----------------------------------------------------------------------------------------------

// Reads a file; of one that is too long only so much that the engine refuses it.
async function readFile(file) {
    const name = shown(file.name);
    try {
        return new GameFile(name, new Uint8Array(await file.slice(0, gamefile.LONGEST + 1).arrayBuffer()));
    } catch {
        const failure = new Error("this file cannot be read");
        return Object.assign(new GameFile(name, new Uint8Array()), { state: "failed", failure });
    }
}

const readFiles = list => Promise.all([...list].map(readFile));

function pastedFile(text) {
    return new GameFile(`pasted.${/^\s*NFG/.test(text) ? "nfg" : "efg"}`, new TextEncoder().encode(text));
}

// Calls `take` with the files that are opened, dropped or pasted.
function listen(take) {
    const open = byId("open"), { classList } = document.body;
    // Whether it is a text for a box that can be edited, which is left to the browser.
    const isForBox = (event, data) => {
        const box = event.target.closest?.("textarea, input");
        return !data.types.includes("Files") && box && !box.readOnly;
    };
    open.addEventListener("change", async () => {
        const files = await readFiles(open.files);
        open.value = "";
        take(files);
    });
    document.addEventListener("dragover", event => {
        if (isForBox(event, event.dataTransfer)) return;
        event.preventDefault();
        classList.add("over");
    });
    document.addEventListener("dragleave", event => event.relatedTarget || classList.remove("over"));
    document.addEventListener("drop", event => {
        classList.remove("over");
        if (isForBox(event, event.dataTransfer)) return;
        event.preventDefault();
        takeFrom(event.dataTransfer, take);
    });
    document.addEventListener("paste", event => {
        if (isForBox(event, event.clipboardData)) return;
        event.preventDefault();
        takeFrom(event.clipboardData, take);
    });
}

// Takes the files of what is dropped or pasted, or else its text.
async function takeFrom(data, take) {
    const text = data.getData("text/plain");
    if (data.files.length > 0) take(await readFiles(data.files));
    else if (text !== "") take([pastedFile(text)]);
}

// Going out -----------------------------------------------------------------------------------------------

function saveBytes(bytes, name) {
    const href = URL.createObjectURL(new Blob([bytes], { type: "application/octet-stream" }));
    el("a", { href, download: name }).click();
    setTimeout(() => URL.revokeObjectURL(href), 60000);
}

// A button that copies what `text` gives, and says so; null is not copied.
function copyButton(words, text) {
    const tell = said => {
        it.textContent = said;
        byId("said").textContent = `${words}: ${said}`;
        setTimeout(() => { it.textContent = words; }, 1500);
    };
    const copy = async () => {
        const copied = await text();
        if (copied === null) return;
        // A browser may have no clipboard for a page, or refuse it.
        await navigator.clipboard.writeText(copied).then(() => tell("Copied"), () => tell("Not copied"));
    };
    const it = button(words, () => copy().catch(() => tell("Not copied")));
    return it;
}
