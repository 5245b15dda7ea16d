"use strict";
// A link that has a game in its fragment: `#game=` and its bytes, packed and in letters, and its name.

// Longer links are cut by some programs.
const MOST_LINK = 8000;
// A file that is longer is not tried: it would have to shrink to a hundredth.
const MOST_TRIED = 100 * MOST_LINK;

async function readStream(stream, most) {
    const parts = [], reader = stream.getReader();
    let length = 0;
    for (let part = await reader.read(); !part.done; part = await reader.read()) {
        length += part.value.length;
        parts.push(part.value);
        if (length > most) {
            await reader.cancel();
            throw new RangeError("the game in it is larger than 16 MiB");
        }
    }
    const all = new Uint8Array(length);
    parts.reduce((at, part) => (all.set(part, at), at + part.length), 0);
    return all;
}

const through = (bytes, transform, most) => readStream(new Blob([bytes]).stream().pipeThrough(transform), most);

// The link to the page with a file in it; null if it would be too long.
async function packedLink(file) {
    if (file.bytes.length > MOST_TRIED) return null;
    const packed = await through(file.bytes, new CompressionStream("deflate-raw"), Infinity);
    if (packed.length > MOST_LINK) return null;
    const letters = btoa(String.fromCharCode(...packed));
    const game = letters.replaceAll("+", "-").replaceAll("/", "_").replaceAll("=", "");
    const link = `${location.href.split("#")[0]}#${new URLSearchParams({ game, name: file.name })}`;
    return link.length > MOST_LINK ? null : link;
}

// The file in the fragment of the page's address; null if there is none.
async function linkedFile() {
    const words = new URLSearchParams(location.hash.slice(1)), game = words.get("game");
    if (game === null) return null;
    const packed = atob(game.replaceAll("-", "+").replaceAll("_", "/"));
    const bytes = Uint8Array.from(packed, it => it.charCodeAt(0));
    const unpacked = await through(bytes, new DecompressionStream("deflate-raw"), gamefile.LONGEST);
    return new GameFile(shown(words.get("name") ?? "") || "linked-game", unpacked);
}
