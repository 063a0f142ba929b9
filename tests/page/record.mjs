// node record.mjs PAGE >demo/page/src/recording.json: a recording of the page's own pair, for browsers that lack what the program needs: what
// is told, and of each scene what changed.
import {pageOf} from './script.mjs';

const EPOCHS = 80, EPOCH_MS = 700;
const ORDERS = {30: 'primary', 44: 'protect', 54: 'lose', 66: 'backup', 72: 'protect'};
const {PARTS, GUESTS, SHARES, Program, Page, Pair, Client, Tape, unpacked, wordsOf} = pageOf(process.argv[2]);

const guest = GUESTS.server, lines = [];
const program = new Program(await WebAssembly.compile(await unpacked(PARTS.right)));
const shown = {guest: 'server', count: null, last: []};
shown.client = new Client(guest.patience, ({kind}) => lines.push(['tell', kind, {}, shown.pair.now]));
shown.pair = new Pair(program, {...guest, boot: guest.boot(await wordsOf(PARTS.server))}, shown.client, new Tape(),
    (kind, facts) => lines.push(['tell', kind, facts, shown.pair.now]));
const next = () => shown.client.ask(guest.request(), body => {
    shown.count = guest.count(body);
    shown.last = [...shown.last, {number: shown.count, isWrong: false}].slice(-14);
    next();
});

next();
shown.pair.boot();
let before = {};
for (let epoch = 0; epoch < EPOCHS; epoch++) {
    if (ORDERS[epoch]) shown.pair.order(ORDERS[epoch]);
    for (const moment of shown.pair.epoch()) {
        if (shown.pair.now < guest.begins) continue;
        const scene = Page.prototype.scene.call(shown);
        const changed = Object.fromEntries(Object.entries(scene).filter(([name, value]) => JSON.stringify(value) !== JSON.stringify(before[name])));
        lines.push(['draw', changed, Math.round(EPOCH_MS * SHARES[moment])]);
        before = scene;
    }
}
process.stdout.write('[\n' + lines.map(line => JSON.stringify(line)).join(',\n') + '\n]\n');
