"use strict";
// The text of the current file, with the place marked where it is refused. It can be edited, if it is short enough
// and nothing is lost by it: what is not UTF-8 is shown with U+FFFD, and can only be read.

// So many bytes of a text are shown; more would make the page slow.
const MOST_TEXT = 100000;

const decoded = bytes => new TextDecoder("utf-8", { ignoreBOM: true }).decode(bytes);
// A text box has line feeds alone.
const inBox = text => text.replace(/\r\n?/g, "\n");

// The part of a file that is shown: all of it, or of a long one what is around its refused place.
function partOf({ bytes, refusal }) {
    if (bytes.length <= MOST_TEXT) return { from: 0, to: bytes.length };
    const start = refusal ? refusal.start : 0, least = Math.max(0, start - MOST_TEXT / 2);
    const from = start < MOST_TEXT / 2 ? 0 : Math.max(least, bytes.lastIndexOf(10, start - MOST_TEXT / 4) + 1);
    return { from, to: Math.min(bytes.length, from + MOST_TEXT) };
}

class SourceView {
    // `edited` is called with the bytes of a changed text.
    constructor(edited) {
        Object.assign(this, { edited, box: byId("source"), behind: byId("behind"), note: byId("source-note") });
        this.box.addEventListener("input", () => this.onInput());
        this.box.addEventListener("scroll", () => this.follow());
        byId("show-place").addEventListener("click", () => this.choosePlace());
    }

    show(file) {
        const { bytes } = file, part = partOf(file), text = decoded(bytes.subarray(part.from, part.to));
        Object.assign(this, { file, part });
        this.lineEnd = /\r\n/.test(text) && !/[^\r]\n/.test(text) ? "\r\n" : "\n";
        const again = this.bytesOf(inBox(text));
        const isExact = again.length === bytes.length && again.every((byte, i) => byte === bytes[i]);
        this.box.readOnly = !isExact;
        if (this.box.value !== inBox(text)) this.box.value = inBox(text);
        this.note.textContent = isExact ? "" : this.whyReadOnly();
        this.markPlace();
    }

    whyReadOnly() {
        const { from, to } = this.part, all = this.file.bytes.length;
        if (to - from < all) return `Bytes ${grouped(from)} to ${grouped(to)} of ${grouped(all)}, read-only.`;
        return "Not all of it is UTF-8 with usual line ends: it is shown as far as possible, and is read-only.";
    }

    // The bytes of a text of the box.
    bytesOf(text) {
        return new TextEncoder().encode(this.lineEnd === "\n" ? text : text.replaceAll("\n", this.lineEnd));
    }

    // Where a byte of the file stands in the box.
    letterAt(byte) {
        const { from, to } = this.part;
        return inBox(decoded(this.file.bytes.subarray(from, Math.max(from, Math.min(byte, to))))).length;
    }

    // Marks the refused place, in a copy of the text that lies behind the box. An empty place has a mark too.
    markPlace() {
        const { refusal } = this.file, { value } = this.box;
        if (!refusal) return this.behind.replaceChildren();
        this.start = this.letterAt(refusal.start);
        this.end = this.letterAt(refusal.end);
        this.mark = el("mark", { class: this.end > this.start ? null : "empty" }, value.slice(this.start, this.end));
        this.behind.replaceChildren(value.slice(0, this.start), this.mark, value.slice(this.end), "\n");
        this.follow();
    }

    follow() {
        this.behind.scrollTop = this.box.scrollTop;
        this.behind.scrollLeft = this.box.scrollLeft;
    }

    // Brings the place into sight: its end, or its beginning if it is wide.
    scrollToPlace() {
        const { mark, box } = this, end = mark.offsetLeft + mark.offsetWidth;
        box.scrollTop = Math.max(0, mark.offsetTop - box.clientHeight / 2);
        box.scrollLeft = Math.max(0, Math.min(mark.offsetLeft - 40, end - box.clientWidth + 40));
        this.follow();
    }

    choosePlace() {
        this.box.focus();
        this.box.setSelectionRange(this.start, this.end);
        this.scrollToPlace();
    }

    onInput() {
        this.behind.replaceChildren();
        this.edited(this.bytesOf(this.box.value));
    }
}
