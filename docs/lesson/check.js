#!/usr/bin/env node
// Whether docs/lesson.html shows what it has to, in a browser. With both modules, for every store of the lesson, after every number of bytes
// and every set of sectors of its last write, and of writes that heal, what the page shows is what the program prints for the input that the
// page shows; strip, list and bench say the same. The rest follows from the lesson by docs/lesson/expected.js. The page can be read, printed,
// and used by keyboard alone.
//
// Usage: docs/lesson/check.js PROGRAM     PROGRAM is `verdicts`, as target/bin/verdicts
'use strict';

const { execFileSync } = require('node:child_process');
const { mkdtempSync, readFileSync, rmSync, writeFileSync } = require('node:fs');
const { tmpdir } = require('node:os');
const path = require('node:path');
const { pathToFileURL } = require('node:url');
const { openPage, contrast, overflow, names, keyboard } = require('./browser.js');
const { SIZE, SECTORS, expectations, allowedAfter, allowedWith, runWords, setAt, setWords, listed } = require('./expected.js');

const PAGE = path.join(__dirname, '..', 'lesson.html'), STORES = path.join(__dirname, 'stores.py');
const STEP = 1024, SETS = 1 << SECTORS, PART_DIGITS = 2 * 34;
const program = process.argv[2];
if (program === undefined) {
    console.error('usage: docs/lesson/check.js PROGRAM');
    process.exit(2);
}
const lesson = JSON.parse(execFileSync('python3', [STORES, 'json'], { maxBuffer: 1 << 26 })), expected = expectations(lesson);
const faults = [];
const insist = (holds, complaint) => { if (!holds) faults.push(complaint); };
const equal = (where, shown, wanted) => {
    const [one, other] = [shown, wanted].map(value => JSON.stringify(value));
    insist(one === other, `${where}: ${one} is shown, and it has to be ${other}`);
};

// ---- what the program says

const printed = new Map(), worded = new Map();

// What the program prints for an input, and its words.
function answerTo(input) {
    if (!printed.has(input)) printed.set(input, execFileSync(program, { input, encoding: 'utf8' }));
    const codes = printed.get(input);
    const words = () => execFileSync('python3', [STORES, 'words'], { input: codes, encoding: 'utf8' }).trimEnd().split('\n');
    if (!worded.has(codes)) worded.set(codes, words());
    return { codes, words: worded.get(codes) };
}

// The standing of each pair and the heads of its boxes, by the words of an answer.
function headsOf(words) {
    const heal = /^Heal ([AB]) of pair (\d+)/.exec(words.at(-1));
    const isHealed = (pair, head) => heal && Number(heal[2]) === pair && head.startsWith(heal[1]);
    return words.slice(0, -1).map((line, pair) => {
        const [, standing, a, b] = /^Pair \d+: (\w+), winner \w+, (A \w+), (B \w+)$/.exec(line);
        return [standing, ...[a, b].map(head => isHealed(pair, head) ? `${head}, to be healed` : head)].join(' | ');
    });
}

// The statuses of all slots, by the codes of an input.
function statusesOf(input) {
    const status = (line, at) => lesson.words.status[parseInt(line.slice(at, at + 2), 16)].word;
    return input.trim().split('\n').slice(1).flatMap(line => [status(line, 0), status(line, PART_DIGITS)]);
}

function checkShown(where, shown) {
    const { codes, words } = answerTo(shown.input);
    equal(`${where}, codes`, shown.output, codes);
    equal(`${where}, words`, shown.words, words);
    equal(`${where}, boxes`, shown.heads, headsOf(words));
    equal(`${where}, statuses`, shown.statuses, statusesOf(shown.input));
}

// ---- in the page

// Functions that the page is given, to read what it shows.
const READERS = `
    const texts = (root, selector) => Array.from(root.querySelectorAll(selector), node => node.textContent);
    const rows = (root, selector) => Array.from(root.querySelectorAll(selector + ' tbody tr'), row => texts(row, 'th, td').join(' | '));
    const headsIn = root => Array.from(root.querySelectorAll('.pair'),
        pair => [pair.querySelector('.name strong').textContent, ...texts(pair, '.head')].join(' | '));
    const namesIn = root => Array.from(root.querySelectorAll('.pair .name'),
        name => Array.from(name.childNodes, node => node.nodeName === 'STRONG' ? '' : node.textContent).join('').trim());
    const answerIn = root => ({ input: root.querySelector('.input').textContent, output: root.querySelector('.output').textContent,
        words: texts(root, '.words li') });
    const slotsIn = root => ({ heads: headsIn(root), statuses: texts(root, '.status') });
    const boxesIn = root => Array.from(root.querySelectorAll('.slot'), slot => texts(slot, '.status, span').join(' | '));
    const stripIn = root => Array.from(root.querySelectorAll('.strip i'), part => [part.classList[0], Number(part.style.flexGrow)]);
    const runsIn = root => Array.from(root.querySelectorAll('.runs li'), line => [line.querySelector('button').textContent,
        line.querySelector('span').firstChild.textContent, line.querySelector('small').textContent]);
    const cutAt = (root, k) => {
        const range = root.querySelector('[type=range]');
        root.querySelector('[value=bytes]').click();
        range.value = k;
        range.dispatchEvent(new Event('input'));
        return [Number(range.value), Number(root.querySelector('[type=number]').value)];
    };
    const twoFrames = () => new Promise(done => requestAnimationFrame(() => requestAnimationFrame(done)));`;

// A function body in the page, with `root` for a place on it.
const inPage = (page, root, body) => page.evaluate(`async () => { ${READERS}
    const root = document.querySelector(${JSON.stringify(root)});
    ${body} }`);

// Goes through some cuts and gives what is shown, each different thing once, with the cuts that show it.
const walk = (page, root, from, to) => inPage(page, root, `
    const found = new Map();
    for (let k = ${from}; k <= ${to}; k++) {
        const [at, exact] = cutAt(root, k), shown = { ...answerIn(root), ...slotsIn(root) }, key = JSON.stringify(shown);
        if (!found.has(key)) found.set(key, { ...shown, cuts: [] });
        found.get(key).cuts.push(at === exact ? at : -1);
    }
    return Array.from(found.values());`);

// The same through all sets of sectors, one sector changed at a time; a cut is the list of the sectors that are new.
const walkSectors = (page, root) => inPage(page, root, `
    const found = new Map(), toggles = root.querySelectorAll('.sector');
    root.querySelector('[value=sectors]').click();
    for (let step = 0; step < ${SETS}; step++) {
        if (step > 0) toggles[31 - Math.clz32(step & -step)].click();
        const fresh = Array.from(toggles, (toggle, i) => toggle.getAttribute('aria-pressed') === 'true' ? i : -1).filter(i => i >= 0);
        const shown = { ...answerIn(root), ...slotsIn(root) }, key = JSON.stringify(shown);
        if (!found.has(key)) found.set(key, { ...shown, cuts: [] });
        found.get(key).cuts.push(fresh);
    }
    return Array.from(found.values());`);

const meaning = verdict => `${verdict}: ${lesson.words.verdict.find(entry => entry.word === verdict).meaning}`;

// What is shown at each place, as runs of places with one status and one answer.
function runsOf(write, shownAt) {
    const runs = [];
    shownAt.forEach((shown, at) => {
        const key = shown.statuses[2 * write.pair + write.index] + shown.output;
        if (runs.at(-1)?.key === key) runs.at(-1).to = at;
        else runs.push({ key, from: at, to: at, ...runWords(write, shown) });
    });
    return runs;
}

const lengthOf = run => run.to - run.from + 1;
const placesOf = run => `k ${run.from}${run.to > run.from ? ` to ${run.to}` : ''}`;

// The groups of a strip of sets: how many, in words, and which.
function groupsOf(runs, differ) {
    const groups = new Map();
    for (const run of runs) groups.set(run.key, [...groups.get(run.key) ?? [], run]);
    return Array.from(groups.values(), group => {
        const sets = group.flatMap(run => Array.from({ length: lengthOf(run) }, (_, i) => setAt(run.from + i)));
        return { count: sets.length, words: group[0].words, verdict: group[0].verdict, sets: setWords(sets, differ) };
    });
}

// All cuts of a write that a place on the page has, a part at a time, since a command has a time limit; then all sets of its sectors. Gives the
// runs and groups of both.
async function checkCuts(page, where, root, write) {
    const slot = 2 * write.pair + write.index, shownAt = [], shownWith = [], own = await inPage(page, root, 'return runsIn(root);');
    for (let from = 0; from <= SIZE; from += STEP) {
        for (const shown of await walk(page, root, from, Math.min(from + STEP - 1, SIZE))) {
            checkShown(`${where}, k = ${shown.cuts[0]}`, shown);
            for (const k of shown.cuts) shownAt[k] = shown;
        }
    }
    const before = shownAt[0].statuses[slot];
    for (let k = 0; k <= SIZE; k++) {
        const status = shownAt[k]?.statuses[slot];
        insist(allowedAfter(k, before, write).includes(status), `${where}, k = ${k}: the slot is ${status}`);
    }
    const runs = runsOf(write, shownAt);
    const byBytes = await inPage(page, root, 'cutAt(root, 0); return [runsIn(root), stripIn(root)];');
    equal(`${where}, the list`, byBytes[0], runs.map(run => [placesOf(run), run.words, meaning(run.verdict)]));
    equal(`${where}, the strip`, byBytes[1], runs.map(run => [run.verdict, lengthOf(run)]));
    const went = await inPage(page, root, `const went = [];
        for (let i = 0; i < root.querySelectorAll('.runs button').length; i++) {
            root.querySelectorAll('.runs button')[i].click();
            went.push(Number(root.querySelector('[type=range]').value));
        }
        return went;`);
    equal(`${where}, the list's buttons`, went, runs.map(run => run.from));
    for (const shown of await walkSectors(page, root)) {
        checkShown(`${where}, sectors ${shown.cuts[0]}`, shown);
        for (const fresh of shown.cuts) {
            shownWith[fresh.reduce((place, sector) => place | 1 << (SECTORS - 1 - sector), 0)] = shown;
            equal(`${where}, sectors ${fresh}, status`, shown.statuses[slot], allowedWith(fresh, before, write));
        }
    }
    insist(Object.keys(shownWith).length === SETS, `${where}: not all sets of sectors were shown`);
    const sets = runsOf(write, shownWith), groups = groupsOf(sets, write.differ);
    const bySectors = await inPage(page, root, `
        return [runsIn(root), stripIn(root), root.querySelector('.hint').textContent, texts(root, '.sector')];`);
    equal(`${where}, the list of sets`, bySectors[0],
        groups.map(group => [`${group.count} of ${SETS} sets`, `${group.words}; ${group.sets}`, meaning(group.verdict)]));
    equal(`${where}, the strip of sets`, bySectors[1], sets.map(run => [run.verdict, lengthOf(run)]));
    equal(`${where}, the sectors that differ`, bySectors[2], `Old and new differ in the sectors ${listed(write.differ, 'and')} alone.`);
    const isRight = (text, sector) => text.endsWith(', both alike') !== write.differ.includes(sector);
    insist(bySectors[3].every(isRight), `${where}: the buttons say '${bySectors[3].join('; ')}'`);
    return { own, runs, groups, differ: write.differ };
}

// ---- the stores

async function checkStore(page, store) {
    const place = `#${store.name}`, isQuestion = store.name.startsWith('question'), write = expected.lastWrite(store);
    const asked = await inPage(page, place, `const found = root.querySelector('.found');
        return { boxes: boxesIn(found), names: namesIn(found), told: root.querySelector('.told').checkVisibility(),
            intro: root.querySelector('h3 + p').textContent, written: texts(root, 'ol li') };`);
    insist(!asked.told, `${store.name}: the answer is shown before the question is answered`);
    equal(`${store.name}, what happened`, [asked.intro, ...asked.written], [expected.plain(store.intro), ...store.written]);
    equal(`${store.name}, the slots`, asked.boxes, store.slots.flat().map(expected.boxOf));
    equal(`${store.name}, the pairs`, asked.names, expected.namesOf(store));
    const told = await inPage(page, place, `const found = root.querySelector('.found');
        root.querySelector('[data-take=${isQuestion ? 'none' : 'B'}]').click();
        root.querySelector('.try').open = true;
        return { taken: root.querySelector('.taken').textContent, told: root.querySelector('.told').checkVisibility(), boxes: boxesIn(found),
            names: namesIn(found), paragraphs: texts(root, '.told > p'), sums: rows(root, '.sums'), records: texts(root, '.judged .records li'),
            shown: { ...answerIn(root.querySelector('.judged')), ...slotsIn(found) } };`);
    insist(told.told, `${store.name}: the answer is not shown`);
    equal(`${store.name}, the reply`, told.taken, isQuestion ? '' : expected.takenOf(store, 'B'));
    equal(`${store.name}, the slots judged`, [told.boxes, told.names], [asked.boxes, asked.names]);
    equal(`${store.name}, the answer`, told.shown.words, store.answer.map(line => line.words));
    equal(`${store.name}, the text`, told.paragraphs, expected.paragraphsOf(store));
    equal(`${store.name}, the records`, told.records, expected.recordsOf(store));
    equal(`${store.name}, the sums`, told.sums, expected.sumsOf(store));
    checkShown(`${store.name} as it happened`, told.shown);
    await page.settle();
    const begun = await inPage(page, `${place} .cutter`, "return ['h4', '.plan'].map(part => root.querySelector(part).textContent);");
    equal(`${store.name}, the write`, begun, [`Being written: ${write.text}`, write.plan]);
    await checkCuts(page, store.name, `${place} .cutter`, write);
    return SIZE + 1 + SETS;
}

// The write that heals what a cut left: what it is, what is read back of it whole, and all its cuts.
async function checkHeal(page, root, k, { title, plan, record, winner, write }) {
    const begun = await inPage(page, root, `cutAt(root, ${k});
        root.querySelector('.heal').click();
        const title = root.querySelector('h4');
        return [title.textContent, root.querySelector('.plan').textContent, texts(root, '.records li')[${write.pair}], rows(root, '.now').at(-1),
            document.activeElement === title];`);
    equal(`${root}, the write that heals after k = ${k}`, begun, [`Being written: ${title}`, `By the library's plan: ${plan}.`, record, winner, true]);
    await checkCuts(page, `${root} after k = ${k}, ${title}`, root, write);
    return SIZE + 1 + SETS;
}

// What the page shows of the bytes, in numbers, and which cuts it says are left out of the proof.
async function checkBytes(page, root) {
    for (const k of [0, 1, 7, 8, 632, SIZE]) {
        const shown = await inPage(page, root, `cutAt(root, ${k});
            await twoFrames();
            return { label: root.querySelector('canvas').getAttribute('aria-label'), legend: texts(root, '.legend span'),
                note: root.querySelector('.note').textContent, spoken: root.querySelector('[type=range]').getAttribute('aria-valuetext'),
                verdict: texts(root, '.head')[3] };`);
        const counts = /^written: (\d+) bytes, written, the same as before: (\d+), not written: (\d+)$/.exec(shown.label);
        const [, written, same, not] = counts?.map(Number) ?? [];
        insist(written + same === k && not === SIZE - k && (written > 0) === (k > 8), `the bytes at k = ${k}: '${shown.label}'`);
        equal(`the legend at k = ${k}`, shown.legend.join(', '), shown.label);
        equal(`the note at k = ${k}`, shown.note.split('.')[0], k >= 1 && k <= 7 ? 'After one to seven bytes the proof says nothing' : '');
        equal(`what is spoken at k = ${k}`, shown.spoken, `${k} bytes new, slot B is ${shown.verdict.split(',')[0].slice(2)}`);
    }
}

// The write of the first store cut, then the write that heals, and the one that heals after that.
async function checkCutter(page) {
    const write = expected.lastWrite(lesson.stores[0]), plan = 'slot B of pair 1, generation 4, number 6, link of 3';
    const { own, runs, groups, differ } = await checkCuts(page, 'the store to cut', '#cutter', write);
    equal('the list at first', own, runs.map(run => [placesOf(run), run.words, meaning(run.verdict)]));
    await checkBytes(page, '#cutter');
    const bench = await inPage(page, '#bench-runs', "return [rows(root, 'table'), texts(root, 'p'), stripIn(root)];");
    const tries = (count, all) => `${count} of ${all} | ${(all / count).toFixed(1)}`;
    equal('the bench', bench[0], [...runs.map(run => `${placesOf(run)} | ${run.words} | ${tries(lengthOf(run), SIZE + 1)}`),
        ...groups.map(group => `${group.sets} | ${group.words} | ${tries(group.count, SETS)}`)]);
    equal('the bench in words', bench[1], [
        'One given cut is met once in 4097 tries. To meet each of them once takes some 36400, for one write in one store.',
        `Old and new differ in the sectors ${listed(differ, 'and')} alone.`]);
    insist(bench[2].reduce((sum, [, length]) => sum + length, 0) === SIZE + 1 + SETS, 'the strips of the bench have not all cuts');
    const healed = { plan, record: 'Pair 1, from B: generation 4, a page of 10 entries, the fares at block 80',
        winner: "the judge's winner, B | 10 cents a km | 3240 cents | right", write: { ...write, headerWhole: 32 } };
    const title = "the winner's record, fares at 10 cents, to slot B of pair 1, to heal it";
    let cuts = SIZE + 1 + SETS + await checkHeal(page, '#cutter', 632, { ...healed, title: `${title}.` });
    cuts += await checkHeal(page, '#cutter', 20, { ...healed, title: `${title}, once more.` });
    equal('begun again', await inPage(page, '#cutter', "root.querySelector('.again').click(); return root.querySelector('h4').textContent;"),
        `Being written: ${write.text}`);
    return cuts;
}

// Writes that heal another pair than the one that was cut, and the volume record.
async function checkOtherHeals(page) {
    const [two, three] = ['question-2', 'question-3'].map(name => lesson.stores.find(store => store.name === name));
    const cuts = await checkHeal(page, '#question-2 .cutter', 0, {
        title: "the winner's record, fares at 10 cents, to slot B of pair 1, to heal it.",
        plan: 'slot B of pair 1, generation 4, number 7, link of 3',
        record: 'Pair 1, from B: generation 4, a page of 10 entries, the fares at block 80',
        winner: "the judge's winner, B | 10 cents a km | 3240 cents | 168 cents too little",
        write: { ...expected.lastWrite(two), pair: 1, index: 1, alike: false, headerWhole: 32, differ: [0, 1, 2] } });
    return cuts + await checkHeal(page, '#question-3 .cutter', 80, {
        title: "the winner's record to slot A of pair 0, to heal it.",
        plan: 'slot A of pair 0, generation 3, number 9, link of 2',
        record: 'Pair 0, from A: generation 3, a volume record of owner 1 that counts 3 pages',
        winner: "the judge's winner, B | 12 cents a km | 3408 cents | right", write: expected.lastWrite(three) });
}

// ---- the whole page

// What the page says once it has begun: the memory that its module runs on, or why it cannot run.
async function stateOf(page) {
    for (let i = 0; i < 600; i++) {
        const said = "() => { const { ready, fault } = document.body.dataset; return fault ? document.getElementById('fault').textContent : ready; }";
        const state = await page.evaluate(said).catch(() => undefined);
        if (state) return state;
        await new Promise(done => setTimeout(done, 50));
    }
    return 'nothing';
}

async function withPage(query, check, file = PAGE) {
    const page = await openPage(pathToFileURL(file).href + query, { width: 1280, height: 900, limit: 60000 });
    try {
        const result = await check(page, await stateOf(page));
        for (const fault of page.faults) faults.push(`${query || 'the page'}: ${fault}`);
        return result;
    } finally {
        await page.close();
    }
}

// The page loaded anew, after a script of the test.
async function reloaded(page, source) {
    await page.send('Page.addScriptToEvaluateOnNewDocument', { source });
    await page.evaluate("() => { delete document.body.dataset.ready; location.search = '?again'; }");
    return stateOf(page);
}

const MEMORY = { 64: 'The module runs here as it was built, on a 64-bit memory.', 32: 'The module runs here rewritten to a 32-bit memory.' };
const saidOfMemory = page => page.evaluate("() => document.getElementById('memory').textContent");

const checkModule = (query, memory) => withPage(query, async (page, state) => {
    if (state !== memory) throw new Error(`with a ${memory}-bit memory the page says '${state}'`);
    equal('the memory', await saidOfMemory(page), MEMORY[memory]);
    let cuts = await checkCutter(page);
    for (const store of lesson.stores) cuts += await checkStore(page, store);
    return cuts + await checkOtherHeals(page);
});

// The other replies to a choice; what there is besides the stores, and that each link to a place in the page leads to one.
const checkRest = () => withPage('', async page => {
    const asked = lesson.stores.filter(store => !store.name.startsWith('question'));
    for (const slot of ['A', 'none']) {
        const taken = await page.evaluate(`() => { ${READERS}
            for (const store of document.querySelectorAll('[id^=store-]:not([id$=title])')) store.querySelector('[data-take=${slot}]')?.click();
            return texts(document, '[id^=store-] .taken'); }`);
        equal(`the replies to ${slot}`, taken, asked.map(store => expected.takenOf(store, slot)));
        await page.evaluate('() => { delete document.body.dataset.ready; location.reload(); }');
        await stateOf(page);
    }
    const rest = await page.evaluate(`() => { ${READERS}
        const links = Array.from(document.querySelectorAll('a[href^="#"]'), link => link.getAttribute('href').slice(1));
        return { todo: rows(document, '#do table'), lost: links.filter(id => document.getElementById(id) === null), links: links.length,
            words: texts(document, '#words th[scope=col], #words td').join(' ') }; }`);
    equal('what to do', rest.todo, lesson.todo.map(row => row.join(' | ')));
    insist(rest.lost.length === 0 && rest.links >= lesson.stores.length, `links lead nowhere: ${rest.lost}`);
    for (const kind of ['status', 'standing', 'verdict']) {
        for (const entry of lesson.words[kind]) {
            insist(rest.words.includes(`${entry.word} ${entry.meaning}`), `the page does not say what ${entry.word} means`);
        }
    }
});

const checkReading = () => withPage('', async page => {
    const look = async where => {
        for (const check of [contrast, overflow, names]) for (const fault of await check(page)) faults.push(`${where}: ${fault}`);
    };
    const keys = async where => {
        for (const fault of await keyboard(page)) faults.push(`by keyboard, ${where}: ${fault}`);
    };
    const clickAll = selector => page.evaluate(`() => { for (const node of document.querySelectorAll('${selector}')) node.click(); }`);
    await look('at 1280 pixels');
    await keys('as it is loaded');
    await clickAll('[data-take=none]');
    await page.evaluate("() => { for (const node of document.querySelectorAll('details')) node.open = true; }");
    await page.settle();
    await look('at 1280 pixels, all open');
    await page.resize(400, 900);
    await look('at 400 pixels');
    await clickAll('[value=sectors]');
    await page.settle();
    await look('at 400 pixels, by sectors');
    await keys('all open, by sectors');
});

// On paper all answers are shown, and afterwards they wait again.
const checkPrint = () => withPage('', async page => {
    await page.evaluate(`() => {
        globalThis.answers = () => Array.from(document.querySelectorAll('.told')).filter(node => node.checkVisibility()).length;
        addEventListener('beforeprint', () => { globalThis.printed = answers(); }); }`);
    const pdf = await page.print(), [during, after] = await page.evaluate('() => [globalThis.printed, answers()]');
    insist(during === lesson.stores.length && pdf.subarray(0, 5).toString() === '%PDF-', `${during} answers are printed`);
    insist(after === 0, `${after} answers are shown after printing`);
});

// Where there is no WebAssembly, a sentence says so, and nothing is shown that was not computed; with 32-bit memories alone the other module
// runs. Without scripts, or with such as cannot be read, the file itself shows a sentence and nothing else.
const checkWithout = async () => {
    await withPage('', async page => {
        const state = await reloaded(page, 'delete globalThis.WebAssembly');
        const shown = await page.evaluate("() => document.querySelector('main').checkVisibility()");
        const tells = state.startsWith('This page cannot run here: it needs a browser of the year 2022 or later, with WebAssembly.');
        insist(tells && !shown, `without WebAssembly the page says '${state}'`);
    });
    await withPage('', async page => {
        equal('without 64-bit memories', [await reloaded(page, 'WebAssembly.validate = () => false'), await saidOfMemory(page)], ['32', MEMORY[32]]);
    });
    const text = readFileSync(PAGE, 'utf8');
    const waits = text.includes('<p id="fault" class="fault">The library has not begun.') && text.includes('\n<main hidden>\n');
    insist(waits, 'without scripts no sentence is shown');
};

// The page with another answer, another example and another checksum has to notice.
async function checkItsChecks() {
    const text = readFileSync(PAGE, 'utf8'), folder = mkdtempSync(path.join(tmpdir(), 'lesson-'));
    try {
        for (const [from, to, says] of [
            ['"words":"Pair 0: Confirmed, winner B', '"words":"Pair 0: Confirmed, winner A', 'store-1 has another answer than the lesson says'],
            ['"output":"0001', '"output":"0101', "README's store has not README's answer"],
            ['0x8a9136aa', '0x8a9136ab', 'the checksum of 32 zeros is not that of RFC 3720'],
        ]) {
            const file = path.join(folder, 'changed.html');
            insist(text.includes(from), `the page has no ${from} to change`);
            writeFileSync(file, text.replace(from, to));
            const sentence = `This page shows nothing, since it does not pass its own checks. (${says})`;
            await withPage('', async (page, state) => equal(`with ${to}`, state, sentence), file);
        }
    } finally {
        rmSync(folder, { recursive: true });
    }
}

async function main() {
    const besides = async () => { for (const check of [checkRest, checkReading, checkPrint, checkWithout, checkItsChecks]) await check(); };
    const [built, narrow] = await Promise.all([checkModule('', '64'), checkModule('?memory=32', '32'), besides()]);
    for (const fault of faults.slice(0, 20)) console.error(`docs/lesson/check.js: ${fault.slice(0, 1000)}`);
    if (faults.length > 0) process.exit(1);
    console.log(`docs/lesson/check.js: of ${built + narrow} cuts docs/lesson.html shows what ${program} prints, which are ${printed.size} answers; `
        + 'it says what the lesson says, reads, prints and goes by keyboard as it has to');
}

main().catch(fault => {
    console.error(`docs/lesson/check.js: ${fault.message}`);
    process.exit(1);
});
