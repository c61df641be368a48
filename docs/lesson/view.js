// What the page says of a store: its slots as boxes, the judge's answer in words and codes, the records read back, and what a day's
// journeys cost. The words are the lesson's tables.
'use strict';

// An element with attributes, listeners and children; an attribute that is false or null is left out.
function make(tag, properties, ...children) {
    const node = document.createElement(tag);
    for (const [name, value] of Object.entries(properties ?? {})) {
        if (typeof value === 'function') node.addEventListener(name, value);
        else if (value !== false && value !== null) node.setAttribute(name, value === true ? '' : value);
    }
    node.append(...children);
    return node;
}

// A table whose first cell in each row is its head.
function makeTable(heads, rows) {
    const row = ([head, ...cells]) => make('tr', null, make('th', { scope: 'row' }, head), ...cells.map(cell => make('td', null, cell)));
    return make('div', { class: 'wide' }, make('table', null,
        make('thead', null, make('tr', null, ...heads.map(head => make('th', { scope: 'col' }, head)))),
        make('tbody', null, ...rows.map(row))));
}

const hex = bytes => Array.from(bytes, byte => byte.toString(16).padStart(2, '0')).join('');

// `medium` is docs/lesson/host.js on the library, C the constants of the header.
function viewOf(medium, C, lesson) {
    const word = (kind, code) => lesson.words[kind][code].word;

    // ---- the judge's answer

    const judge = store => ({ ...medium.judge(store), pairs: store.slots.length });
    const codesOf = ({ verdicts }, pair) => verdicts.subarray(C.SIO_VERDICT_LEN * pair, C.SIO_VERDICT_LEN * (pair + 1));
    const standingOf = (judged, pair) => word('standing', codesOf(judged, pair)[C.SIO_VERDICT_STANDING]);
    const winnerOf = (judged, pair) => word('slot', codesOf(judged, pair)[C.SIO_VERDICT_WINNER]);
    const verdictOf = (judged, pair, index) => word('verdict', codesOf(judged, pair)[C.SIO_VERDICT_A + index]);

    // The slot that is named for healing, if one is.
    function healOf({ judgement }) {
        const slot = judgement[C.SIO_JUDGEMENT_HEAL_SLOT];
        if (slot === C.SIO_SLOT_NONE) return null;
        return { pair: judgement[C.SIO_JUDGEMENT_HEAL_PAIR], index: slot - C.SIO_SLOT_A, slot: word('slot', slot) };
    }

    // docs/lesson/stores.py says the same of the codes, and docs/lesson/check.js compares the two.
    function pairWords(judged, pair) {
        const [a, b] = [0, 1].map(index => verdictOf(judged, pair, index));
        return `Pair ${pair}: ${standingOf(judged, pair)}, winner ${winnerOf(judged, pair)}, A ${a}, B ${b}`;
    }

    function storeWords(judged) {
        const heal = healOf(judged), says = (place, yes, no) => judged.judgement[place] ? yes : no;
        return [
            heal ? `Heal ${heal.slot} of pair ${heal.pair}` : 'Heal nothing',
            says(C.SIO_JUDGEMENT_WRITABLE, 'the store may be written', 'the store may not be written'),
            says(C.SIO_JUDGEMENT_CLEAN, 'the clean mark counted', 'the clean mark did not count'),
            says(C.SIO_JUDGEMENT_REFUSED, 'a pair is refused', 'no pair is refused'),
            says(C.SIO_JUDGEMENT_OWNERS_DIFFER, 'two owners', 'one owner'),
        ].join('; ');
    }

    // The last line that `verdicts` prints: the slot, its pair in four bytes, and a byte for each question.
    function storeCodes({ judgement }) {
        const codes = new Uint8Array(9);
        codes[0] = judgement[C.SIO_JUDGEMENT_HEAL_SLOT];
        new DataView(codes.buffer).setUint32(1, judgement[C.SIO_JUDGEMENT_HEAL_PAIR], true);
        codes.set(judgement.slice(C.SIO_JUDGEMENT_WRITABLE), 5);
        return hex(codes);
    }

    // The meaning of a verdict, as the lesson has it.
    const meaningOf = verdict => lesson.words.verdict.find(entry => entry.word === verdict).meaning;

    const eachPair = (judged, says) => Array.from({ length: judged.pairs }, (_, pair) => says(judged, pair));
    const answerWords = judged => [...eachPair(judged, pairWords), storeWords(judged)];
    const answerCodes = judged => [...eachPair(judged, (each, pair) => hex(codesOf(each, pair))), storeCodes(judged)];

    // The input of `verdicts`: the mark, and a line a frame.
    function inputText({ frames, clean }) {
        const lines = [clean ? '01' : '00'];
        for (let at = 0; at < frames.length; at += C.SIO_FRAME_LEN) lines.push(hex(frames.subarray(at, at + C.SIO_FRAME_LEN)));
        return lines.join('\n') + '\n';
    }

    function drawAnswer(judged) {
        const text = (kind, of, said) => make('pre', { class: kind, tabindex: 0, 'aria-label': `${of} of verdicts` }, said);
        return make('div', { class: 'answer' },
            make('ul', { class: 'words' }, ...answerWords(judged).map(line => make('li', null, line))),
            make('details', { class: 'codes' }, make('summary', null, 'As the program verdicts reads and prints it'),
                text('input', 'input', inputText(judged)), text('output', 'output', answerCodes(judged).join('\n') + '\n')));
    }

    // ---- slots

    // A checksum is named by the write of the pair that has it.
    const checksumName = (told, pair, checksum) => checksum === 0 ? 'none'
        : told.writes.find(write => write.pair === pair && write.checksum === checksum)?.name ?? 'of no write';

    // What the write that is cut would be, as the library plans it.
    function planWords(told) {
        const { pair, index, generation, number, link, tool } = told.write;
        const plan = `slot ${'AB'[index]} of pair ${pair}, generation ${generation}, number ${number}, link ${checksumName(told, pair, link)}`;
        return tool ? `Not planned: ${plan}.` : `By the library's plan: ${plan}.`;
    }

    // What a slot shows, each value in parentheses that the judge is not given.
    function slotLines(told, store, pair, index) {
        const slot = store.slots[pair][index], part = store.parts[pair][index], data = new DataView(part.buffer);
        const facts = part[C.SIO_PART_FACTS];
        if (slot === null || facts === C.SIO_FACTS_NONE) return [];
        const named = checksum => checksumName(told, pair, checksum);
        const seen = medium.seen(slot), fields = facts === C.SIO_FACTS_FIELDS, valid = part[C.SIO_PART_STATUS] === C.SIO_STATUS_VALID;
        const wide = place => data.getBigUint64(place, true), checksum = place => named(data.getUint32(place, true));
        return [
            `generation ${fields ? wide(C.SIO_PART_GENERATION) : `(${seen.generation})`}`,
            `number ${fields ? wide(C.SIO_PART_META_SEQ) : `(${seen.number})`}`,
            `owner ${valid ? wide(C.SIO_PART_OWNER_GENERATION) : `(${seen.owner})`}`,
            `checksum ${checksum(C.SIO_PART_HEADER_CRC32C)}`,
            `link ${fields ? checksum(C.SIO_PART_PREV_HEADER_CRC32C) : `(${named(seen.link)})`}`,
        ];
    }

    // A slot as it is found or, where it was judged, under its verdict. With `take` it can be chosen.
    function drawSlot(told, store, judged, pair, index, take) {
        const name = 'AB'[index], status = word('status', store.parts[pair][index][C.SIO_PART_STATUS]);
        const verdict = judged ? verdictOf(judged, pair, index) : '', heal = judged && healOf(judged);
        const head = [`${name} ${verdict}`.trim(), ...heal?.pair === pair && heal.index === index ? ['to be healed'] : []].join(', ');
        const choice = take ? { type: 'button', 'data-take': name, click: () => take(name) } : {};
        return make(take ? 'button' : 'div', { class: `slot ${verdict} is-${status}`, ...choice },
            make('b', { class: 'head' }, head), ' ', make('b', { class: 'status' }, status),
            ...slotLines(told, store, pair, index).flatMap(line => [' ', make('span', null, line)]),
            take ? make('i', { class: 'take' }, ' take this slot') : '');
    }

    function pairName(store, judged, pair) {
        const mark = medium.cleanMark(store) ? 'set' : 'not set', several = store.operators.some(operator => operator !== 0);
        const kind = pair === 0 ? `volume record, clean mark ${mark}` : 'page', operator = several ? `, operator ${store.operators[pair]}` : '';
        return make('div', { class: 'name' }, make('b', null, `pair ${pair}`), ` ${kind}${operator} `,
            judged ? make('strong', null, standingOf(judged, pair)) : '');
    }

    // All slots, a row a pair. Where `take` is given the slots of pair 1 can be chosen.
    function drawSlots(told, store, judged, take) {
        return make('div', { class: 'slots' }, ...store.slots.map((two, pair) => make('div', { class: 'pair' }, pairName(store, judged, pair),
            ...two.map((_, index) => drawSlot(told, store, judged, pair, index, pair === 1 ? take : undefined)))));
    }

    // ---- records

    // What the decoders read back of the slot that wins a pair.
    function recordWords(store, pair) {
        const record = medium.record(store, pair);
        if (record === null) return `Pair ${pair}: no record`;
        const from = `Pair ${pair}, from ${'AB'[record.index]}: generation ${record.generation}`;
        if (record.refusal !== undefined) return `${from}, and its decoder refuses it with ${record.refusal}`;
        const pages = record.pages === 1 ? '1 page' : `${record.pages} pages`;
        if (pair === 0) return `${from}, a volume record of owner ${record.owner} that counts ${pages}`;
        const faulty = record.entries.filter(entry => entry.refusal !== undefined).length, fares = medium.faresOf(record);
        return [`${from}, a page of ${record.entries.length} entries`, ...faulty ? [`${faulty} refused`] : [],
            ...fares ? [`the fares at block ${fares.block}`] : []].join(', ');
    }

    function drawRecords(store) {
        return make('details', { class: 'records' }, make('summary', null, 'The records, as they are read back'),
            make('ul', null, ...store.slots.map((_, pair) => make('li', null, recordWords(store, pair)))));
    }

    // ---- fares

    // What the journeys of a day cost: 20 cents a km up to kilometre 40, beyond it the price given.
    const sumOf = cents => lesson.journeys.reduce((sum, km) => sum + 40 * 20 + (km - 40) * cents, 0);

    // The writes, of which the one that is cut counts as torn where it does not stand whole.
    function finished(told, store) {
        const { pair, index, checksum } = told.write, part = store.parts[pair][index], data = new DataView(part.buffer);
        const whole = part[C.SIO_PART_STATUS] === C.SIO_STATUS_VALID && data.getUint32(C.SIO_PART_HEADER_CRC32C, true) === checksum;
        return told.writes.map(write => write === told.write ? { ...write, torn: !whole } : write);
    }

    // The price of the last page of pair 1 that was written whole, by what happened. What a tool wrote beside the validator is none, nor what
    // heals, which is an older one again.
    const isPage = write => write.pair === 1 && !write.tool && !write.heals;
    const lastWhole = (told, store) => finished(told, store).filter(write => isPage(write) && !write.torn).at(-1).cents;

    function drawSums(told, store, judged) {
        const right = lastWhole(told, store), winner = winnerOf(judged, 1), [a, b] = store.slots[1].map(slot => slot && medium.seen(slot).cents);
        const row = (head, cents) => {
            if (cents === undefined || cents === null) return [head, 'no price', '–', '–'];
            const difference = sumOf(cents) - sumOf(right);
            const against = difference === 0 ? 'right' : `${Math.abs(difference)} cents too ${difference < 0 ? 'little' : 'much'}`;
            return [head, `${cents} cents a km`, `${sumOf(cents)} cents`, against];
        };
        const judges = winner === 'none' ? row('the judge: no winner')
            : row(`the judge's winner, ${winner}`, medium.faresOf(medium.record(store, 1))?.cents);
        return makeTable(['fares taken from', 'beyond kilometre 40', 'the three journeys', 'compared with the last page written whole'],
            [row('the bytes of slot A', a), row('the bytes of slot B', b), judges]);
    }

    return { word, judge, standingOf, winnerOf, verdictOf, meaningOf, healOf, planWords, answerWords, answerCodes, finished, drawAnswer,
        drawSlots, drawRecords, drawSums };
}
