// The pair as its operator and its line see it: who runs the guest, what is on the line, what the gate holds. All is done by lines that the
// program answers. An epoch goes in moments, and after each the page may draw what is there, and wait.
"use strict";

const PENDING = 4; // the most checkpoints that are pending
const LOST = 3; // packets that are lost where some are to be

class Pair {
    // `guest`: {boot, steps (of an epoch), ms (of the guest's time that an epoch takes), begins (the step from which it listens)}.
    // `tells(kind, facts)` is told what happened.
    constructor(program, guest, client, tape, tells) {
        Object.assign(this, {program, guest, client, tape, tells, now: 0, hosts: [1, 2], live: 0, last: 2, mode: "paired", isReady: true,
            packets: 0, acks: 0, travels: null, gate: [], committed: 0, generation: 1, loses: 0, losing: false, stoppedAt: null, epochs: 0,
            orders: [], released: null, early: new Set(), isEarly: !!program.exports.early_count, moment: "run", wanted: 0, isAhead: false});
    }

    say(line) {
        const answer = this.program.answer(line);
        this.tape.keep(line, answer);
        if (/^(bad|refused)/.test(answer)) this.tells("refused", {line: line.slice(0, 40), answer});
        return answer;
    }

    // The numbers in an answer.
    numbers(line) {
        return (this.say(line).match(/\d+/g) ?? []).map(Number);
    }

    boot() {
        this.say(this.guest.boot);
        this.tells("boots", {});
    }

    // What the page shows.
    scene() {
        const {hosts, live, mode, isReady, committed, generation, gate, travels, released, moment, now, epochs, isEarly} = this;
        return {hosts: [...hosts], live, mode, isReady, committed, generation, gate: [...gate], travels, released, moment, now, epochs, isEarly};
    }

    step(part) {
        const steps = Math.round(this.guest.steps * part);
        this.say(`step ${steps}`);
        this.now += steps;
    }

    // The moments of an epoch. What was ordered is done behind each.
    *epoch() {
        this.released = null;
        if (this.mode === "stopped") return yield* this.silence();
        this.epochs++;
        yield* this.at("run", () => this.step(0.5));
        if (this.travels) yield* this.arrives();
        if (this.goesOn()) yield* this.at("talk", () => this.exchange());
        if (this.goesOn()) yield* this.at("run", () => this.step(0.5));
        if (this.mode === "paired" && !this.travels) yield* this.at("cut", () => this.cut());
    }

    goesOn() {
        return this.mode !== "stopped";
    }

    *at(moment, act) {
        this.moment = moment;
        act();
        yield moment;
        this.obey();
    }

    cut() {
        if (this.gate.length < PENDING) {
            const [generation, number] = this.numbers("cut");
            this.gate.push({generation, number});
            this.letGoEarly();
        }
        this.send();
    }

    // A gate that is wrong lets go what it is given to hold, and the client goes on with that at once.
    letGoEarly() {
        const frames = this.program.early(), {answers} = this.client;
        for (const hex of frames) {
            this.early.add(hex);
            this.client.take(bytesOfHex(hex), this.now);
        }
        if (this.early.size > 4096) this.early = new Set([...this.early].slice(-1024));
        if (frames.length) this.deliver();
        this.isAhead = this.client.answers > answers;
    }

    send() {
        const [count] = this.numbers("send");
        this.travels = {packets: Array.from({length: count}, (_, at) => this.packets + at), number: this.gate.at(-1)?.number ?? this.committed,
            isLost: this.isLost()};
        this.packets += count;
    }

    isLost() {
        const isLost = this.loses > 0;
        if (isLost) this.loses--;
        return isLost;
    }

    // What is on the line comes to the backup, and its acknowledgement to the primary; or it is lost.
    *arrives() {
        const {packets, isLost} = this.travels;
        this.travels = null;
        if (isLost) return yield* this.at("lost", () => { this.losing = true; this.tells("loses", {held: this.gate.length}); });
        yield* this.at("commit", () => { for (const packet of packets) this.commit(this.say(`backup ${packet}`)); });
        if (this.mode === "paired") yield* this.at("release", () => this.release());
    }

    commit(answer) {
        const [word, , number] = answer.split(" ");
        if (word === "committed" || word === "again") this.wanted++;
        if (word !== "committed") return;
        Object.assign(this, {committed: +number, isAhead: false});
        if (this.losing) { this.losing = false; this.tells("catches up", {}); }
        if (!this.isReady) { this.isReady = true; this.tells("is ready", {host: this.hosts[1 - this.live]}); }
    }

    // The acknowledgements of what was committed come, and the gate opens for their frames.
    release() {
        let landed = 0;
        for (; this.wanted > 0; this.wanted--) landed += this.numbers(`ack ${this.acks++}`)[2] ?? 0;
        this.released = landed;
        this.gate = this.gate.filter(({number}) => number > this.committed);
    }

    // The client takes what landed for it, and sends.
    exchange() {
        this.take();
        this.deliver();
    }

    take() {
        for (;;) {
            const [word, hex] = this.say("take 1").split(" ");
            if (word !== "frame") return;
            if (!this.early.delete(hex)) this.client.take(bytesOfHex(hex), this.now);
        }
    }

    deliver() {
        if (this.now < this.guest.begins) return;
        for (const frame of this.client.go(this.now)) {
            this.say(`deliver 1 ${hexOf(frame)}`);
            if (this.mode !== "stopped") this.say("admit 1");
        }
    }

    // The primary has stopped, and nobody is sure of it yet. Then the backup goes live.
    *silence() {
        yield* this.at("silent", () => { this.now += this.guest.steps; this.deliver(); });
        if (this.now - this.stoppedAt >= this.guest.steps * this.guest.sure) yield* this.at("live", () => this.goLive());
    }

    goLive() {
        const [generation] = this.numbers("golive");
        this.live = 1 - this.live;
        Object.assign(this, {generation, mode: "alone", isReady: false, gate: []});
        this.tells("goes live", {host: this.hosts[this.live], number: this.committed});
        while (/^admitted/.test(this.say("admit 1")));
    }

    // ---- what the buttons order

    // With a wrong gate the primary stops where that shows: once the client was given an answer that the backup hasn't.
    order(what) {
        this.orders.push(what);
    }

    can(what) {
        return {primary: this.mode === "paired" && this.isReady, backup: this.mode === "paired", protect: this.mode === "alone",
            lose: this.mode === "paired" && this.loses === 0}[what];
    }

    // Does what was ordered, and can be done.
    obey() {
        for (const order of this.orders.splice(0)) {
            if (!this.can(order)) continue;
            if (order === "primary" && this.isEarly && !this.isAhead) this.orders.push(order);
            else this[order]();
        }
    }

    primary() {
        this.say("fail primary");
        const lost = this.gate.filter(({number}) => number > this.committed).length;
        this.tells("primary stops", {host: this.hosts[this.live], lost, kept: this.gate.length - lost, isEarly: this.isEarly});
        this.giveUp({mode: "stopped", stoppedAt: this.now});
    }

    backup() {
        const [, landed] = this.numbers("fail backup");
        this.tells("backup stops", {host: this.hosts[1 - this.live], landed});
        this.giveUp({mode: "alone", isReady: false, gate: []});
    }

    // What is on the line is gone, acknowledgements too.
    giveUp(and) {
        Object.assign(this, {travels: null, loses: 0, losing: false, acks: this.acks + this.wanted, wanted: 0, ...and});
    }

    protect() {
        const [generation] = this.numbers("protect");
        this.hosts[1 - this.live] = ++this.last;
        Object.assign(this, {generation, mode: "paired", isReady: false, committed: -1, gate: [{generation, number: 0}]});
        this.tells("protects", {host: this.last});
        this.send();
    }

    lose() {
        this.loses = LOST;
        this.tells("will lose", {count: LOST});
    }
}
