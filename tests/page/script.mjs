// The script of demo/page/index.html, for node: what it defines, without the part that starts it.
import fs from 'node:fs';
import vm from 'node:vm';

export function pageOf(file) {
    const script = /<script>\n([\s\S]*)<\/script>/.exec(fs.readFileSync(file, 'utf8'))[1].replace(/\nmain\(\)[^\n]*\n$/, '\n');
    return vm.runInThisContext(`(() => {${script}\nreturn {PARTS, GUESTS, SHARES, Program, Page, Pair, Client, Tape, unpacked, wordsOf, lacking};})()`);
}
