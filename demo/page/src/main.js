// The page: its guests, its clock and its buttons.
"use strict";

// Milliseconds of an epoch, from slow to fast; 0 is as fast as it goes.
const SPEEDS = [6000, 3000, 1500, 900, 500, 250, 100, 25, 0];
const LAST = 14; // answers that are shown
const KEYS = {p: "primary", b: "backup", n: "protect", l: "lose", e: "early"};

const post = text => `POST /sql HTTP/1.1\r\nHost: 10.0.0.1\r\nConnection: keep-alive\r\nContent-Length: ${bytesOfText(text).length}\r\n\r\n${text}`;

const GUESTS = {
    server: {name: "web server", steps: 25000, ms: 25, begins: 400000, sure: 4, patience: 100000,
        boot: words => `boot 1024 400 1 words ${words}`, request: () => "GET /count HTTP/1.1\r\nHost: 10.0.0.1\r\nConnection: keep-alive\r\n\r\n",
        count: body => +body},
    sql: {name: "database", steps: 500000, ms: 10, begins: 2000000, sure: 4, patience: 5000000,
        boot: words => `boot 8192 32768 1 words ${words}`, request: () => post("UPDATE tally SET n = n + 1 RETURNING n"),
        count: body => +(/^(\d+)\s*$/m.exec(body)?.[1]), before: [post("CREATE TABLE IF NOT EXISTS tally(n INTEGER); "
            + "INSERT INTO tally SELECT 0 WHERE NOT EXISTS(SELECT * FROM tally); "
            + "CREATE TABLE IF NOT EXISTS account(id INTEGER PRIMARY KEY, name TEXT, balance INTEGER); "
            + "INSERT OR IGNORE INTO account VALUES(1, 'Ada', 100), (2, 'Bob', 0)")]},
};
const sleep = ms => new Promise(done => setTimeout(done, ms));

// The words of a guest, of its image packed in base64: the bytes in fours, least first.
async function wordsOf(packed) {
    const bytes = await unpacked(packed), words = [];
    for (let at = 0; at < bytes.length; at += 4) words.push(hexOf([bytes[at + 3], bytes[at + 2], bytes[at + 1], bytes[at]]));
    return words.join(" ");
}

class Page {
    constructor() {
        Object.assign(this, {view: new View(), guest: "server", isEarly: false, run: 0, modules: {}, words: {}});
    }

    async module() {
        const name = this.isEarly ? "early" : "right";
        return this.modules[name] ??= await WebAssembly.compile(await unpacked(PARTS[name]));
    }

    // A new pair, from its boot on.
    async begin() {
        const run = ++this.run, guest = GUESTS[this.guest];
        const words = this.words[this.guest] ??= await wordsOf(PARTS[this.guest]);
        const program = new Program(await this.module());
        if (run !== this.run) return;
        $("happened").replaceChildren();
        this.view.perSecond = guest.steps / guest.ms * 1000;
        Object.assign(this, {program, tape: new Tape(), count: null, last: []});
        this.client = new Client(guest.patience, ({kind}) => this.tell(kind, {}));
        this.pair = new Pair(program, {...guest, boot: guest.boot(words)}, this.client, this.tape, (kind, facts) => this.tell(kind, facts));
        for (const text of guest.before ?? []) this.client.ask(text, () => {});
        this.askNext();
        this.pair.boot();
        if (this.isEarly) this.tell("boots early", {});
        this.go(run);
    }

    askNext() {
        const {request, count} = GUESTS[this.guest];
        this.client.ask(request(), body => {
            this.hear(count(body));
            this.askNext();
        });
    }

    hear(number) {
        const isWrong = this.count !== null && number !== this.count + 1;
        if (isWrong) this.tell("wrong number", {number});
        this.count = number;
        this.last = [...this.last, {number, isWrong}].slice(-LAST);
    }

    tell(kind, facts) {
        this.view.tell(kind, facts, this.pair?.now ?? 0);
    }

    scene() {
        const {client, pair} = this, {answers, longest, repeated} = client, {name, steps, ms} = GUESTS[this.guest], inMs = ms / steps;
        return {...pair.scene(), client: {count: this.count, last: this.last, answers, longest: longest * inMs, repeated,
            waits: client.waits(pair.now) * inMs, guest: name}};
    }

    draw(ms) {
        this.view.draw(this.scene(), ms);
        for (const button of document.querySelectorAll("[data-order]")) button.disabled = !this.can(button.dataset.order);
        $("seconds").textContent = `${this.program.seconds.toFixed(1)} s`;
        $("memory").textContent = `${Math.round(this.program.memory() / 1048576)} MB`;
    }

    can(order) {
        return order === "early" || this.pair.can(order);
    }

    // Nobody has to wait until the guest is up.
    epochMs() {
        return this.pair.now < GUESTS[this.guest].begins ? 0 : SPEEDS[$("speed").value];
    }

    async go(run) {
        let drawn = performance.now(), due = drawn;
        while (run === this.run) {
            for (const moment of this.pair.epoch()) {
                const ms = this.epochMs() * SHARES[moment];
                due += ms;
                if (ms >= 30) {
                    this.draw(ms);
                    await this.pause(ms);
                    due = drawn = performance.now();
                }
                if (run !== this.run) return;
            }
            const now = performance.now();
            if (now - drawn >= 33 || due > now + 4) {
                this.draw(0);
                await sleep(Math.max(0, due - now));
                drawn = performance.now();
                due = Math.max(due, drawn - 100);
            }
        }
    }

    // Waits so long, or until the clock is moved.
    async pause(ms) {
        const begun = performance.now(), at = this.epochMs();
        for (let left = ms; left > 0 && this.epochMs() === at; left = ms - (performance.now() - begun)) await sleep(Math.min(left, 50));
    }

    order(what) {
        if (what !== "early") return this.pair?.order(what);
        this.isEarly = !this.isEarly;
        $("early").setAttribute("aria-pressed", this.isEarly);
        this.begin();
    }
}

function showSpeed() {
    const ms = SPEEDS[$("speed").value];
    $("speedwords").textContent = ms === 0 ? "as fast as it goes" : ms === 25 ? "as in reality" : `an epoch in ${ms / 1000} s`;
}

function download(name, text) {
    const link = Object.assign(document.createElement("a"), {href: URL.createObjectURL(new Blob([text], {type: "text/plain"})), download: name});
    link.click();
    setTimeout(() => URL.revokeObjectURL(link.href), 10000);
}

function wire(page) {
    for (const button of document.querySelectorAll("[data-order]")) button.onclick = () => page.order(button.dataset.order);
    $("speed").oninput = showSpeed;
    $("tape").onclick = () => download("tape.sim", page.tape.text());
    $("sql").onsubmit = event => { event.preventDefault(); ask(page); };
    for (const choice of document.querySelectorAll("[name=guest]")) choice.onchange = () => choose(page, choice.value);
    document.addEventListener("keydown", event => {
        if (event.ctrlKey || event.metaKey || event.altKey || event.target.closest("textarea, input[type=text]")) return;
        const order = KEYS[event.key.toLowerCase()], speed = {"+": 1, "-": -1}[event.key];
        if (order) $(order).click();
        if (speed) { $("speed").value = +$("speed").value + speed; showSpeed(); }
    });
}

function ask(page) {
    const text = $("statement").value.trim();
    if (!text) return;
    $("result").textContent = "…";
    page.tell("asks", {text: text.length > 60 ? text.slice(0, 60) + "…" : text});
    page.client.queue.unshift({request: bytesOfText(post(text)), then: body => { $("result").textContent = body || "done"; }});
}

function choose(page, guest) {
    page.guest = guest;
    document.body.dataset.guest = guest;
    page.begin();
}

// Where a browser lacks what the program needs, a recording of it (tests/page/record.mjs): what is told, and of each scene what changed.
async function replay(page, lacks) {
    document.body.dataset.replays = "yes";
    $("lacks").textContent = `This browser lacks ${lacks}, which the program needs (Chrome 133, Firefox 134 or later have it). What you see is a recording of it.`;
    for (const control of document.querySelectorAll("button, input, textarea")) control.disabled = true;
    const recording = JSON.parse(textOf(await unpacked(PARTS.recording)));
    for (;;) {
        $("happened").replaceChildren();
        let scene = {};
        for (const [what, ...rest] of recording) {
            if (what === "tell") { page.view.tell(...rest); continue; }
            scene = {...scene, ...rest[0]};
            page.view.draw(scene, rest[1]);
            await sleep(rest[1]);
        }
    }
}

async function main() {
    const page = new Page(), lacks = new URLSearchParams(location.search).get("lacks") ?? lacking();
    window.page = page;
    page.view.perSecond = 1e6;
    showSpeed();
    if (lacks) return replay(page, lacks);
    wire(page);
    await page.begin();
}

main().catch(error => { $("lacks").textContent = `The page ended: ${error.message}`; });
