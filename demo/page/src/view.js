// What the page shows of a pair and its client.
"use strict";

const $ = id => document.getElementById(id);
const DOCS = "../../docs/";
const LONG_MS = 80; // of the guest's time: where a client has to wait so long, something has stopped
const epochsOf = count => count === 1 ? "one epoch" : `${count} epochs`;
const framesOf = count => count === 1 ? "one frame" : `${count} frames`;

// What happened, in words, and the page with its rule.
const HAPPENED = {
    "boots": () => ["Two hosts boot one image. Host 1 runs it, and host 2 is its backup.", "PROTOCOL.md"],
    "boots early": () => ["A new pair, whose gate is wrong: it lets frames go when an epoch ends, and waits for nobody. Now stop the primary.",
        "OUTPUT_COMMIT.md"],
    "primary stops": ({host, lost, kept, isEarly}) => [`Host ${host} stops, in the middle of an epoch.`
        + (isEarly ? " The client has an answer that the backup never got." : "")
        + (lost && !isEarly ? ` What the guest sent in ${epochsOf(lost)} is at the gate, and never leaves.` : "")
        + (kept && !isEarly ? ` What it sent in ${epochsOf(kept)} the backup has too, and will send.` : ""), "PROTOCOL.md#events"],
    "goes live": ({host, number}) => [`Host ${host} goes on, from the guest as it was after epoch ${number}.`, "PROTOCOL.md#events"],
    "backup stops": ({host, landed}) => [`Host ${host}, the backup, stops. The other goes on alone, and nothing waits`
        + (landed ? `: ${framesOf(landed)} leave the gate.` : "."), "PROTOCOL.md#events"],
    "protects": ({host}) => [`Host ${host} is a new backup. It is sent the whole guest, which goes on meanwhile.`, "PROTOCOL.md#events"],
    "is ready": ({host}) => [`Host ${host} has the whole guest, and can go on from here.`, "PROTOCOL.md#events"],
    "will lose": ({count}) => [`The next ${count} packets on the line will be lost.`, "PROTOCOL.md#the-pair-protocol"],
    "loses": ({held}) => [`A checkpoint is lost on the line. The gate stays shut over ${epochsOf(held)}, and the client waits.`,
        "PROTOCOL.md#frames"],
    "catches up": () => ["Sent again, the checkpoints came, and the gate opens.", "PROTOCOL.md#frames"],
    "wrong number": ({number}) => [`The client was given ${number} a second time. What it was told has been taken back.`, "OUTPUT_COMMIT.md", "wrong"],
    "reconnects": () => ["The client's connection is broken, and it opens another.", "LIVE.md#clients-across-a-failure", "wrong"],
    "refused": ({line, answer}) => [`${line}: ${answer}`, "PROTOCOL.md#events", "wrong"],
    "asks": ({text}) => [`The client asks: ${text}`, "SQL.md"],
};

// How long each moment takes, in parts of an epoch.
const SHARES = {run: 0.22, lost: 0.2, commit: 0.16, release: 0.16, talk: 0.08, cut: 0.16, silent: 1, live: 0.6};
const WORDS = {
    run: "the guest runs", cut: "the epoch ends, and its checkpoint is sent", commit: "the backup has the checkpoint", lost: "the checkpoint is lost",
    release: "it is acknowledged, and the gate opens", talk: "the client and the guest talk", silent: "is it really gone?", live: "the backup goes on",
};

class View {
    constructor() {
        this.stills = matchMedia("(prefers-reduced-motion: reduce)");
    }

    draw(scene, ms) {
        const {hosts, live, mode, isReady, committed, gate, moment, isEarly, client} = scene;
        for (const place of [0, 1]) this.drawHost($(`host${place}`), hosts[place], this.stateOf(scene, place), committed, client.guest);
        $("moment").textContent = ms >= 30 ? WORDS[moment] : mode === "paired" ? "checkpoints and acknowledgements" : "";
        $("line").dataset.way = mode === "alone" ? "none" : mode === "stopped" ? "silent" : "open";
        $("line").dataset.from = live;
        this.drawGate(gate, mode, isEarly, committed);
        this.drawClient(client);
        $("epochs").textContent = scene.epochs.toLocaleString("en");
        $("steps").textContent = scene.now.toLocaleString("en");
        $("generation").textContent = scene.generation;
        if (ms >= 30 && !this.stills.matches) this.move(scene, ms);
    }

    stateOf({live, mode, isReady}, place) {
        if (place === live) return mode === "stopped" ? "gone" : mode === "alone" ? "alone" : "runs";
        return mode === "alone" ? "none" : isReady ? "backup" : "filling";
    }

    drawHost(card, number, state, committed, guest) {
        const words = {runs: "runs the guest", alone: "runs the guest, alone", gone: "has stopped", none: "has stopped",
            backup: `has the guest after epoch ${committed}`, filling: "is sent the whole guest"};
        card.dataset.state = state;
        card.querySelector("h3").textContent = `Host ${number}`;
        card.querySelector("p").textContent = words[state];
        card.querySelector(".guest").textContent = guest;
    }

    drawGate(gate, mode, isEarly, committed) {
        const isOpen = mode === "alone";
        $("gate").dataset.state = isEarly ? "early" : isOpen ? "open" : "shut";
        $("held").replaceChildren(...gate.map(({number}) => Object.assign(document.createElement("span"), {className: "chip",
            textContent: number === 0 ? "until the copy is whole" : `epoch ${number}`})));
        $("gatewords").textContent = isEarly ? "A wrong gate: what the guest sends goes out at once." : isOpen
            ? "No backup: the gate is open." : mode === "stopped" && gate.some(({number}) => number > committed)
                ? "What the backup hasn't never leaves." : mode === "stopped" ? "The backup has this too." : gate.length
                ? "What the guest sent waits for its checkpoint." : "Nothing waits.";
    }

    drawClient({count, last, answers, longest, repeated, waits, guest}) {
        $("count").textContent = count ?? "–";
        $("client").dataset.state = waits > LONG_MS ? "waits" : "served";
        $("clientwords").textContent = waits > LONG_MS ? "waits for an answer" : answers ? "each answer is one more than the last" : "waits until the guest is up";
        $("last").replaceChildren(...last.map(({number, isWrong}) => Object.assign(document.createElement("li"), {textContent: number,
            className: isWrong ? "wrong" : ""})));
        $("answers").textContent = answers.toLocaleString("en");
        $("longest").textContent = `${Math.round(longest).toLocaleString("en")} ms`;
        $("repeated").textContent = repeated;
        if (last.some(({isWrong}) => isWrong)) $("clientwords").textContent = "was told one number twice";
    }

    // What moves in a moment: a checkpoint, an acknowledgement, and frames.
    move({moment, live, travels}, ms) {
        const run = ms / SHARES[moment] * SHARES.run;
        if (moment === "cut" && travels) this.cross("checkpoint", live, ms + run, travels.isLost);
        if (moment === "commit") this.cross("acknowledgement", 1 - live, ms, false);
        if (moment === "release") this.rise("up", ms);
        if (moment === "talk") this.rise("down", ms * 1.5);
    }

    cross(what, from, ms, isLost) {
        const dot = $("dot"), [start, end] = from === 0 ? [0, 100] : [100, 0];
        dot.className = what;
        dot.animate([{left: `${start}%`, opacity: 1}, {left: `${isLost ? 50 : end}%`, opacity: isLost ? 0.2 : 1}], {duration: ms, easing: "ease-in-out"});
    }

    rise(way, ms) {
        const frames = $("frames");
        frames.className = way;
        frames.animate(way === "up" ? [{top: "100%", opacity: 1}, {top: "0%", opacity: 1}] : [{top: "0%", opacity: 1}, {top: "100%", opacity: 1}],
            {duration: ms, easing: "ease-in-out"});
    }

    tell(kind, facts, now) {
        const [text, page, state] = HAPPENED[kind](facts), item = document.createElement("li"), link = document.createElement("a");
        item.className = state ?? "";
        item.append(Object.assign(document.createElement("time"), {textContent: `${(now / this.perSecond).toFixed(2)} s`}));
        item.append(Object.assign(link, {href: DOCS + page, textContent: text, target: "_blank", rel: "noopener"}));
        $("happened").prepend(item);
        while ($("happened").childElementCount > 60) $("happened").lastChild.remove();
    }
}
