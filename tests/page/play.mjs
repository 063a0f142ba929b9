// node play.mjs PAGE FOLDER: what the page's module answers to each script of FOLDER, line by line, against its .expected; and then a run of
// the page's own pair and client while hosts stop, whose tape goes to standard output. A line on standard error for each thing that is wrong.
import fs from 'node:fs';
import path from 'node:path';
import {pageOf} from './script.mjs';

const [, , file, folder] = process.argv;
const page = pageOf(file);
let wrong = 0;

function expect(name, came, wanted) {
    if (came === wanted) return;
    wrong++;
    console.error(`${name}: ${JSON.stringify(came)?.slice(0, 200)}, not ${JSON.stringify(wanted)?.slice(0, 200)}`);
}

const moduleOf = async name => WebAssembly.compile(await page.unpacked(page.PARTS[name]));

function playExample(module, script) {
    const program = new page.Program(module);
    const lines = fs.readFileSync(path.join(folder, script), 'utf8').split('\n').slice(0, -1);
    const printed = lines.map(line => program.answer(line)).filter(answer => answer !== '').map(answer => answer + '\n').join('');
    expect(script, printed, fs.readFileSync(path.join(folder, script.replace(/\.sim$/, '.expected')), 'utf8'));
}

// A pair of the page for so many epochs, with these orders at these epochs. Answers the numbers that the client was given, and the tape.
async function run(module, guestName, epochs, orders) {
    const guest = page.GUESTS[guestName], words = await page.wordsOf(page.PARTS[guestName]), numbers = [], told = [], tape = new page.Tape();
    const client = new page.Client(guest.patience, ({kind}) => told.push(kind));
    const pair = new page.Pair(new page.Program(module), {...guest, boot: guest.boot(words)}, client, tape, kind => told.push(kind));
    const next = () => client.ask(guest.request(), body => { numbers.push(guest.count(body)); next(); });
    for (const text of guest.before ?? []) client.ask(text, () => {});
    next();
    pair.boot();
    for (let epoch = 0; epoch < epochs; epoch++) {
        if (orders[epoch]) pair.order(orders[epoch]);
        for (const _ of pair.epoch());
    }
    return {numbers, told, tape, client};
}

const jumps = numbers => numbers.filter((number, at) => at > 0 && number !== numbers[at - 1] + 1).length;
const ORDERS = {60: 'primary', 90: 'protect', 130: 'lose', 160: 'backup', 190: 'protect', 220: 'primary', 260: 'protect'};

const right = await moduleOf('right'), early = await moduleOf('early');
for (const script of fs.readdirSync(folder).filter(name => name.endsWith('.sim')).sort()) playExample(right, script);
for (const guest of ['server', 'sql']) {
    const {numbers, told, tape, client} = await run(right, guest, 300, ORDERS);
    expect(`${guest}: numbers that aren't the next`, jumps(numbers), 0);
    expect(`${guest}: it is served`, numbers.length > 100, true);
    expect(`${guest}: connections`, client.connections, 1);
    expect(`${guest}: what happened`, told.filter(kind => ['goes live', 'is ready', 'backup stops', 'catches up'].includes(kind)).join(),
        'goes live,is ready,catches up,backup stops,is ready,goes live,is ready');
    expect(`${guest}: nothing is refused`, told.includes('refused'), false);
    if (guest === 'server') process.stdout.write(tape.text());
}
const {numbers, told} = await run(early, 'server', 300, {60: 'primary'});
expect('a gate that goes too early: numbers that come twice', jumps(numbers) > 0 && new Set(numbers).size < numbers.length, true);
expect('and the client notices', told.includes('reconnects'), true);
process.exit(wrong > 0 ? 1 : 0);
