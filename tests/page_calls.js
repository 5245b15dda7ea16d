"use strict";
// What tests/page has a browser do: the calls of page/engine.js on the files that are chosen in the field
// with the id `files`. Bytes go to the test as a text with a character for each.

let engine = null;

function characters(bytes) {
    const parts = [];
    for (let at = 0; at < bytes.length; at += 32768) {
        parts.push(String.fromCharCode(...bytes.subarray(at, at + 32768)));
    }
    return parts.join("");
}

async function chosen() {
    const files = [...document.getElementById("files").files];
    return Promise.all(files.map(async it => new Uint8Array(await it.arrayBuffer())));
}

// The answer of a call: its value, or the name of its error and what that says.
async function answer(call) {
    try {
        const value = await call();
        return value instanceof Uint8Array ? { bytes: characters(value) } : { value };
    } catch (error) {
        return { error: error.name, ...error, message: error.message };
    }
}

// All that one file answers.
async function answersOf(file) {
    return {
        check: await answer(() => engine.check(file)),
        canonical: await answer(() => engine.canonical(file)),
        unnamed: await answer(() => engine.canonical(file, { names: false })),
        hash: await answer(() => engine.hash(file)),
        unnamed_hash: await answer(() => engine.hash(file, { names: false })),
        table: await answer(() => engine.table(file)),
        reduced: await answer(() => engine.table(file, { reduced: true })),
    };
}

async function answersOfPair(first, second) {
    return {
        same: await answer(() => engine.same(first, second)),
        same_unnamed: await answer(() => engine.same(first, second, { names: false })),
        renumbering: await answer(() => engine.renumbering(first, second)),
    };
}

// Each file by itself, with its canonical text, or with itself if it has none, and with the next file.
async function allAnswers() {
    const files = await chosen(), all = [];
    for (const [index, file] of files.entries()) {
        const text = await engine.canonical(file).catch(() => file);
        all.push({
            ...await answersOf(file),
            with_text: await answersOfPair(file, text),
            with_next: await answersOfPair(file, files[(index + 1) % files.length]),
        });
    }
    return all;
}

// The explanation of each file, all of which are refused, under its name.
async function explanations(names) {
    const files = await chosen();
    return Promise.all(files.map((file, index) => engine.explain(file, names[index])));
}

// The milliseconds that a check of the first file takes, by many that are asked at once.
async function millisecondsOfCheck(times) {
    const [file] = await chosen();
    await engine.check(file);
    const start = performance.now();
    await Promise.all(Array.from({ length: times }, () => engine.check(file)));
    return (performance.now() - start) / times;
}
