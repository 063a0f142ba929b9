// The client: its end of a TCP connection, and above that HTTP. It knows the network alone, and nothing of hosts.
"use strict";

const MOST_SEGMENT = 1400, MOST_TRIES = 5;

class Connection {
    constructor(port, patience) {
        Object.assign(this, {port, patience, next: 1000000, waiting: [], since: 0, tries: 0, expected: null, early: new Map(),
            out: [], received: [], isBroken: false, repeated: 0});
    }

    open(now) {
        this.send(now, SYN, [], [2, 4, ...bytesOf16(1460)]);
    }

    send(now, flags, data = [], options = []) {
        const segment = {port: this.port, number: this.next, flags, data, options};
        segment.end = segment.number + data.length + (flags & (SYN | FIN) ? 1 : 0);
        if (!this.waiting.length) this.since = now;
        this.waiting.push(segment);
        this.next = segment.end;
        this.put(segment);
    }

    write(now, bytes) {
        for (let at = 0; at < bytes.length; at += MOST_SEGMENT) this.send(now, ACK | PSH, bytes.slice(at, at + MOST_SEGMENT));
    }

    put(segment) {
        this.out.push(tcpFrame({...segment, acknowledged: this.expected ?? 0}));
    }

    take(segment, now) {
        if (segment.flags & RST) { this.isBroken = true; return; }
        const left = this.waiting.filter(one => one.end > segment.acknowledged);
        if (left.length < this.waiting.length) Object.assign(this, {waiting: left, since: now, tries: 0});
        const end = segment.number + segment.data.length + (segment.flags & (SYN | FIN) ? 1 : 0);
        if (end === segment.number) return;
        this.expected ??= segment.number;
        this.early.set(segment.number, {end, data: segment.data});
        for (let one; (one = this.early.get(this.expected));) {
            this.early.delete(this.expected);
            this.expected = one.end;
            this.received.push(...one.data);
        }
        if (segment.flags & FIN && this.expected === end) this.isBroken = true;
        this.put({port: this.port, number: this.next, flags: ACK, data: [], options: []});
    }

    // Sends again what wasn't acknowledged in time, and gives up after five times.
    repeat(now) {
        if (!this.waiting.length || now - this.since < this.patience) return;
        if (++this.tries > MOST_TRIES) { this.isBroken = true; return; }
        Object.assign(this, {since: now, repeated: this.repeated + 1});
        this.put(this.waiting[0]);
    }
}

class Client {
    // `patience`: after how many steps a segment is sent again. `hears(event)` is told of what the client sees.
    constructor(patience, hears) {
        Object.assign(this, {patience, hears, port: 40000, connection: null, asked: null, queue: [], out: [arpFrame(1)], since: 0,
            answers: 0, longest: 0, repeated: 0, connections: 0});
    }

    // Asks for something by HTTP, once what was asked before is answered: `then(body)` is given the answer.
    ask(request, then) {
        this.queue.push({request: bytesOfText(request), then});
    }

    take(frame, now) {
        if (isArpRequest(frame)) this.out.push(arpFrame(2));
        const segment = segmentOf(frame);
        if (segment && this.connection && segment.port === this.connection.port) this.connection.take(segment, now);
    }

    // What it does at this time. Answers the frames that it sends.
    go(now) {
        if (this.connection?.isBroken) this.lose();
        if (!this.connection && this.queue.length) this.connect(now);
        const {connection} = this;
        if (connection) {
            if (!this.asked && this.queue.length && connection.expected !== null) this.begin(now);
            const body = this.asked && this.bodyOf(connection);
            if (body !== null && body !== undefined && this.asked) this.answered(body, now);
            connection.repeat(now);
            this.repeated += connection.repeated;
            connection.repeated = 0;
            this.out.push(...connection.out.splice(0));
        }
        return this.out.splice(0);
    }

    connect(now) {
        this.connection = new Connection(++this.port, this.patience);
        this.connections++;
        this.connection.open(now);
        if (this.connections > 1) this.hears({kind: "reconnects"});
    }

    lose() {
        this.connection = null;
        if (this.asked) { this.queue.unshift(this.asked); this.asked = null; }
    }

    begin(now) {
        this.asked = this.queue.shift();
        this.since = now;
        this.connection.received.length = 0;
        this.connection.write(now, this.asked.request);
    }

    // The answer's body, once it is there whole.
    bodyOf({received}) {
        const text = textOf(Uint8Array.from(received)), end = text.indexOf("\r\n\r\n");
        if (end < 0) return null;
        const length = /Content-Length: (\d+)/i.exec(text.slice(0, end))?.[1];
        const start = bytesOfText(text.slice(0, end + 4)).length;
        return length === undefined || received.length < start + +length ? null : textOf(Uint8Array.from(received.slice(start, start + +length)));
    }

    answered(body, now) {
        const {then} = this.asked;
        this.asked = null;
        this.answers++;
        this.longest = Math.max(this.longest, now - this.since);
        then(body);
        if (this.queue.length) this.begin(now);
    }

    // How long it has waited for an answer, in steps.
    waits(now) {
        return this.asked ? now - this.since : 0;
    }
}
