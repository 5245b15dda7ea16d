"use strict";
// The page: which files are open and which is current, what is found about each, and which view of it is shown.

// Milliseconds: after which a change of the text is judged, and after which it is told that a call takes longer.
const PAUSE = 150, PATIENCE = 250;

class Page {
    constructor(engine) {
        this.calls = new CallQueue(engine);
        this.views = new Views(this);
        this.source = new SourceView(bytes => this.onEdit(bytes));
        this.showing = new AbortController();
        Object.assign(this, { files: [], current: null, other: null, tab: "picture" });
        byId("version").textContent = `gamefile ${engine.version}`;
    }

    // Inputs ----------------------------------------------------------------------------------------------

    listen() {
        const menu = byId("examples");
        for (const { name } of gamefile.examples) menu.append(el("option", {}, name));
        menu.addEventListener("change", () => {
            if (menu.value) this.choose(this.example(menu.value));
        });
        listen(files => this.take(files));
        byId("new").addEventListener("click", () => {
            this.take([new GameFile(`untitled-${this.files.length + 1}.efg`, new Uint8Array())]);
            byId("source").focus();
        });
        byId("stop").addEventListener("click", () => this.showing.abort("by hand"));
        byId("tabs").addEventListener("keydown", event => this.onTabKey(event));
        window.addEventListener("hashchange", () => this.takeLink());
    }

    async takeLink() {
        try {
            const linked = await linkedFile();
            if (linked) this.take([linked]);
            return linked !== null;
        } catch (error) {
            this.say(`The game in this link cannot be read: ${error.message}`);
            return false;
        }
    }

    // An example as an open file.
    example(name) {
        const open = this.files.find(it => it.name === name && it.isExample);
        if (open) return open;
        const { text } = gamefile.examples.find(it => it.name === name);
        const file = new GameFile(name, new TextEncoder().encode(text));
        file.isExample = true;
        this.files.push(file);
        this.judge(file);
        return file;
    }

    // Takes further files. The example that was shown at first makes room for them, and a name that is taken gets a
    // number.
    take(files) {
        if (this.files.length === 1 && this.files[0].isFirst) this.files = [];
        for (const file of files) {
            const { name } = file;
            for (let i = 2; this.files.some(it => it.name === file.name); i++)
                file.name = name.replace(/(\.[en]fg)?$/i, ` (${i})$1`);
            this.files.push(file);
        }
        for (const file of files) if (file.state === "waiting") this.judge(file);
        if (files.length > 0) this.choose(files[0]);
    }

    close(file) {
        const at = this.files.indexOf(file);
        this.files.splice(at, 1);
        if (this.other === file) this.other = null;
        if (this.current !== file) {
            this.showFiles();
            if (this.tab === "compare") this.show();
            return;
        }
        if (this.files.length === 0) this.files.push(new GameFile("untitled.efg", new Uint8Array()));
        const next = this.files[Math.min(at, this.files.length - 1)];
        if (next.state === "waiting") this.judge(next);
        this.choose(next);
        byId("files").querySelector("[aria-current=true]").focus();
    }

    onEdit(bytes) {
        const file = this.current;
        file.setBytes(bytes);
        file.isExample = file.isFirst = this.bringsPlace = false;
        // What is being worked out for the text as it was is not shown any more.
        this.showing.abort();
        this.showing = new AbortController();
        clearTimeout(file.pause);
        file.judged = new Promise(done => {
            file.pause = setTimeout(() => done(this.judge(file)), PAUSE);
        });
    }

    // Judging ---------------------------------------------------------------------------------------------

    // Has a file checked, and shows what is found if it is still the current one, with these bytes.
    judge(file) {
        const { bytes, answers } = file;
        const judged = this.check(file, bytes).then(found => {
            if (file.bytes !== bytes || file.answers !== answers) return;
            Object.assign(file, found);
            this.showFiles();
            if (file === this.current) this.show();
        });
        file.judged = judged;
        return judged;
    }

    async check(file, bytes) {
        try {
            return { state: "valid", kind: (await this.calls.run(null, "check", bytes)).kind };
        } catch (error) {
            if (error instanceof gamefile.Refusal) return this.explained(file, bytes, error);
            return { state: "failed", failure: error };
        }
    }

    async explained(file, bytes, refusal) {
        try {
            const explanation = await this.calls.run(null, "explain", bytes, file.name);
            return { state: "refused", refusal, explanation };
        } catch (error) {
            return { state: "failed", failure: error };
        }
    }

    // Showing ---------------------------------------------------------------------------------------------

    choose(file) {
        this.current = file;
        byId("notice").textContent = "";
        byId("source").value = "";
        // The menu shows the current example, so that arrow keys go on from there.
        byId("examples").value = file.isExample ? file.name : "";
        this.bringsPlace = true; // the refused place is brought into sight; not while one types
        this.show();
        this.showFiles();
        byId("files").querySelector("[aria-current]").scrollIntoView({ block: "nearest" });
    }

    compareWith(file) {
        this.other = file;
        this.showFiles();
        this.show().then(() => byId("other")?.focus());
    }

    say(words) {
        byId("said").textContent = byId("notice").textContent = words;
    }

    showFiles() {
        const list = byId("files"), focused = document.activeElement;
        const at = [...list.querySelectorAll("button")].indexOf(focused);
        list.replaceChildren(...this.files.map(it => this.entry(it)));
        const buttons = list.querySelectorAll("button");
        if (at >= 0) buttons[Math.min(at, buttons.length - 1)].focus();
    }

    // A file in the list.
    entry(file) {
        const what = { refused: file.refusal?.code, valid: file.kind, failed: "not read", waiting: "…" }[file.state];
        const choose = el("button", {
            type: "button", class: "name", title: file.name, click: () => this.choose(file),
            "aria-current": file === this.current ? "true" : null,
        }, el("span", {}, file.name), " ", el("small", {}, what));
        const close = button("×", () => this.close(file), { class: "close", "aria-label": `Close ${file.name}` });
        return el("li", { class: file.state }, choose, close);
    }

    showVerdict(file) {
        const verdict = byId("verdict"), isEmpty = file.bytes.length === 0 && file.state === "refused";
        byId("name").textContent = file.name;
        document.title = `${file.name}: gamefile`;
        verdict.className = isEmpty ? "waiting" : file.state;
        verdict.textContent = isEmpty ? "There is no text yet." : this.verdictOf(file);
        byId("wrong").hidden = file.state !== "refused" || isEmpty;
        byId("explanation").textContent = file.explanation;
    }

    verdictOf({ state, kind, refusal, failure }) {
        if (state === "refused") return `Refused with ${refusal.code}: ${refusal.message}.`;
        if (state === "failed") return `${capital(failure.message)}.`;
        if (state === "waiting") return "…";
        return kind === "tree" ? "Valid: an extensive file, a tree." : "Valid: a strategic file, a table.";
    }

    // Shows the tabs of a file, and gives the chosen one; null if there are none.
    showTabs(file) {
        const tabs = file.state === "valid" ? TABS[file.kind] : [], list = byId("tabs");
        const chosen = tabs.some(([id]) => id === this.tab) ? this.tab : tabs[0]?.[0] ?? null;
        const hadFocus = list.contains(document.activeElement);
        list.hidden = chosen === null;
        list.replaceChildren(...tabs.map(([id, words]) => button(words, () => this.chooseTab(id), {
            role: "tab", id: `tab-${id}`, "aria-controls": "view",
            "aria-selected": `${id === chosen}`, tabindex: id === chosen ? 0 : -1,
        })));
        if (chosen) byId("view").setAttribute("aria-labelledby", `tab-${chosen}`);
        if (hadFocus) list.querySelector("[aria-selected=true]")?.focus();
        return chosen;
    }

    chooseTab(id) {
        this.tab = id;
        return this.show();
    }

    onTabKey(event) {
        const tabs = [...byId("tabs").children], at = tabs.findIndex(it => it.getAttribute("aria-selected") === "true");
        const to = { ArrowRight: at + 1, ArrowLeft: at - 1, Home: 0, End: tabs.length - 1 }[event.key];
        if (to === undefined) return;
        event.preventDefault();
        this.chooseTab(tabs[(to + tabs.length) % tabs.length].id.slice(4));
    }

    // Shows the current file. What was still being worked out for another view is stopped.
    async show() {
        this.showing.abort();
        const file = this.current, showing = this.showing = new AbortController(), view = byId("view");
        this.source.show(file);
        if (file.refusal && this.bringsPlace) this.source.scrollToPlace();
        this.showVerdict(file);
        const tab = this.showTabs(file);
        view.hidden = !tab;
        view.setAttribute("aria-busy", "true");
        const made = tab ? await this.made(tab, file, showing.signal) : { element: "" };
        if (showing !== this.showing) return;
        byId("working").hidden = true;
        view.replaceChildren(made.element);
        view.removeAttribute("aria-busy");
        made.attached?.();
    }

    // Makes a view, and says meanwhile that it takes long, if it does.
    async made(tab, file, signal) {
        const slow = setTimeout(() => {
            byId("view").replaceChildren();
            byId("working").hidden = false;
        }, PATIENCE);
        signal.addEventListener("abort", () => clearTimeout(slow));
        try {
            return await this.views[tab](file, signal);
        } catch (error) {
            return this.failed(error);
        } finally {
            clearTimeout(slow);
        }
    }

    // What is shown in place of a view that could not be made.
    failed(error) {
        const isKnown = Object.values(gamefile).some(it => typeof it === "function" && error instanceof it);
        if (!isKnown) console.error(error);
        const words = error instanceof gamefile.Stopped ? "Stopped" : capital(error.message);
        const again = button("Try again", () => this.show());
        return { element: el("div", {}, el("p", { class: "bad" }, `${words}.`), again) };
    }
}

const capital = words => words.replace(/^./, it => it.toUpperCase());

const UNSUPPORTED = "This browser cannot run the page: it needs WebAssembly with 64-bit memory (Memory64), which Chromium "
    + "has from version 133 on and Firefox from 134 on";

async function start() {
    let engine;
    try {
        engine = await gamefile.startEngine();
    } catch (error) {
        byId("verdict").className = "failed";
        byId("verdict").textContent = `${UNSUPPORTED} (${error.message}).`;
        for (const id of ["inputs", "file", "tabs"]) byId(id).hidden = true;
        return;
    }
    const page = new Page(engine);
    page.listen();
    if (!await page.takeLink()) {
        const first = page.example("selten-horse.efg"), words = byId("notice").textContent;
        first.isFirst = true;
        page.choose(first);
        if (words !== "") page.say(words);
    }
    document.body.dataset.ready = "yes";
}

start();
