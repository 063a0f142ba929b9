// The proved program as a WebAssembly module: a line in, its answer out.
"use strict";

const bytesOfBase64 = text => Uint8Array.from(atob(text), letter => letter.charCodeAt(0));

// What `gzip` packed, in base64.
async function unpacked(text) {
    const stream = new Blob([bytesOfBase64(text)]).stream().pipeThrough(new DecompressionStream("gzip"));
    return new Uint8Array(await new Response(stream).arrayBuffer());
}

// What this browser lacks, or null: the smallest module with a memory of 64-bit addresses.
function lacking() {
    if (typeof WebAssembly !== "object") return "WebAssembly";
    if (typeof DecompressionStream !== "function") return "DecompressionStream";
    return WebAssembly.validate(Uint8Array.of(0, 97, 115, 109, 1, 0, 0, 0, 5, 3, 1, 4, 1)) ? null : "memory64";
}

class Program {
    constructor(module) {
        this.exports = new WebAssembly.Instance(module, {}).exports;
        this.session = this.exports.page_begin();
        if (!this.session) throw new Error("there is no memory for a pair");
        this.room = 0n;
        this.at = 0n;
        this.seconds = 0;
    }

    bytes(at, count) {
        return new Uint8Array(this.exports.memory.buffer, Number(at), Number(count));
    }

    // The answer to a line, both without a newline.
    answer(line) {
        const bytes = new TextEncoder().encode(line), length = BigInt(bytes.length);
        if (length > this.room) {
            this.room = 2n * length;
            this.at = this.exports.page_room(this.room);
            if (!this.at) throw new Error("there is no memory for a line");
        }
        this.bytes(this.at, length).set(bytes);
        const begun = performance.now();
        this.exports.page_play(this.session, this.at, length);
        this.seconds += (performance.now() - begun) / 1000;
        return textOf(this.bytes(this.exports.page_text(this.session), this.exports.page_text_bytes(this.session))).replace(/\n$/, "");
    }

    // What a gate that lets frames go too early has let go since this was asked, as lines of hex. None, where the gate is as it should be.
    early() {
        const {early_count: count, early_frame: frame, early_bytes: length, early_forget: forget} = this.exports;
        if (!count) return [];
        const frames = Array.from({length: Number(count())}, (_, at) => hexOf(this.bytes(frame(BigInt(at)), length(BigInt(at)))));
        forget();
        return frames;
    }

    memory() {
        return this.exports.memory.buffer.byteLength;
    }
}

// What was asked and answered so far: a script whose answers `remus sim` prints again.
class Tape {
    constructor() {
        Object.assign(this, {lines: [], bytes: 0, isFull: false});
    }

    keep(line, answer) {
        if (this.isFull) return;
        this.lines.push(line, answer);
        this.bytes += line.length + answer.length;
        this.isFull = this.bytes > 200e6;
    }

    text() {
        const head = ["# What a page with a pair in it was asked, and, behind '#>', what the program answered there. To see that it answers so here:",
            "#     diff <(./remus sim FILE) <(sed -n 's/^#> //p' FILE)"];
        const pairs = [];
        for (let at = 0; at < this.lines.length; at += 2) pairs.push(this.lines[at], `#> ${this.lines[at + 1]}`);
        return [...head, ...pairs, ""].join("\n");
    }
}
