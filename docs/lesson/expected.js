// What docs/lesson.html has to show of a store, by what docs/TRAINING.md says of it, as docs/lesson/stores.py reads that. Nothing here calls the
// library: plans, records and sums follow from what happened by the rules of the lesson.
'use strict';

const SIZE = 4096, SECTOR = 512, SECTORS = 8, HEADER = 128, ENTRY = 96;
// The byte of the page in pair 1 from which on the price is the new one: the first that differs of the place of its sixth entry's fare table.
const PRICE_AT = HEADER + 24 + 5 * ENTRY + 72 + 2;

const slotName = index => 'AB'[index];
const entriesOf = pair => pair === 1 ? 10 : 2;
const payloadOf = pair => pair === 0 ? 64 : 24 + entriesOf(pair) * ENTRY;
const listed = (words, last) => words.length < 2 ? words.join() : `${words.slice(0, -1).join(', ')} ${last} ${words.at(-1)}`;

function expectations(lesson) {
    const sumOf = cents => lesson.journeys.reduce((sum, km) => sum + 800 + (km - 40) * cents, 0);
    const blockOf = cents => Object.keys(lesson.fares).find(block => lesson.fares[block] === cents);

    // The writes of a store in order: slots in turn, generations and numbers counted, each link that of the generation before. A tool takes slot and
    // generation as it likes.
    function writesOf(store) {
        const generations = {}, numbers = {};
        return store.events.filter(event => !event.harm).map(event => {
            const { pair, slot, cents, owner, clean, bytes, sector, text } = event, operator = store.operators[pair], tool = slot !== null;
            numbers[operator] = (numbers[operator] ?? 0) + 1;
            if (!tool) generations[pair] = (generations[pair] ?? 0) + 1;
            const generation = tool ? event.generation : generations[pair], index = tool ? 'AB'.indexOf(slot) : (generation - 1) % 2;
            const isCut = bytes !== null || sector !== null;
            return { pair, index, generation, number: numbers[operator], cents, owner, clean, bytes, sector, text, tool, isCut };
        });
    }

    function planOf({ pair, index, generation, number, tool }) {
        const link = generation === 1 ? 'none' : `of ${generation - 1}`;
        const plan = `slot ${slotName(index)} of pair ${pair}, generation ${generation}, number ${number}, link ${link}`;
        return tool ? `Not planned: ${plan}.` : `By the library's plan: ${plan}.`;
    }

    // The last write of a store as it is cut: over what it is written, and from which byte on its header and its record stand whole. A volume record
    // is that of the older slot where it has the same owner and mark; of two pages the last entries differ.
    function lastWrite(store) {
        const writes = writesOf(store), last = writes.at(-1), { pair, index, owner, clean } = last;
        const older = writes.slice(0, -1).filter(write => write.pair === pair && write.index === index).at(-1);
        const alike = pair === 0 && older?.owner === owner && older?.clean === clean;
        return { ...last, older, alike, headerWhole: 97, plan: planOf(last), differ: pair === 1 ? [0, 1, 2] : [0] };
    }

    const cellWords = (name, cell) => `${name} ${cell.given ? cell.value : `(${cell.value})`}`;

    // A slot's box, by the table.
    function boxOf(slot) {
        const values = ['generation', 'number', 'owner', 'checksum', 'link'].filter(name => slot[name] !== null);
        return [slot.status, ...values.map(name => cellWords(name, slot[name]))].join(' | ');
    }

    // What stands beside a pair's boxes.
    function namesOf(store) {
        const several = store.operators.some(operator => operator !== 0);
        const kind = pair => pair === 0 ? `volume record, clean mark ${store.clean ? 'set' : 'not set'}` : 'page';
        return store.operators.map((operator, pair) => `pair ${pair} ${kind(pair)}${several ? `, operator ${operator}` : ''}`);
    }

    const winnersOf = store => store.answer.slice(0, -1).map(line => 'AB'.indexOf(/ winner (\w+),/.exec(line.words)[1]));

    // The records as they are read back.
    function recordsOf(store) {
        const writes = writesOf(store), pages = store.slots.length === 2 ? '1 page' : `${store.slots.length - 1} pages`;
        return winnersOf(store).map((index, pair) => {
            if (index < 0) return `Pair ${pair}: no record`;
            const slot = store.slots[pair][index], from = `Pair ${pair}, from ${slotName(index)}: generation ${slot.generation.value}`;
            if (pair === 0) return `${from}, a volume record of owner ${slot.owner.value} that counts ${pages}`;
            const write = writes.find(each => each.pair === pair && each.generation === slot.generation.value);
            return `${from}, a page of ${entriesOf(pair)} entries${pair === 1 ? `, the fares at block ${blockOf(write.cents)}` : ''}`;
        });
    }

    // The table of sums: what each slot's bytes lead to, and what the judge's winner does, beside the last page that was written whole.
    function sumsOf(store) {
        const writes = writesOf(store).filter(write => write.pair === 1), right = writes.filter(write => !write.isCut && !write.tool).at(-1).cents;
        const isWritten = write => !write.isCut || (write.bytes !== null ? write.bytes > PRICE_AT : write.sector === Math.floor(PRICE_AT / SECTOR));
        const seen = [0, 1].map(index => writes.filter(write => write.index === index && isWritten(write)).at(-1)?.cents);
        const winner = winnersOf(store)[1];
        const row = (head, cents) => {
            if (cents === undefined) return [head, 'no price', '–', '–'].join(' | ');
            const difference = sumOf(cents) - sumOf(right), way = difference < 0 ? 'little' : 'much';
            const compared = difference === 0 ? 'right' : `${Math.abs(difference)} cents too ${way}`;
            return [head, `${cents} cents a km`, `${sumOf(cents)} cents`, compared].join(' | ');
        };
        const taken = winner < 0 ? undefined : writes.find(write => write.generation === store.slots[1][winner].generation.value).cents;
        return [row('the bytes of slot A', seen[0]), row('the bytes of slot B', seen[1]),
            row(winner < 0 ? 'the judge: no winner' : `the judge's winner, ${slotName(winner)}`, taken)];
    }

    // The paragraphs of a store, as the page has them.
    const plain = text => text.replace(/`/g, '');
    const paragraphsOf = store => Object.entries(lesson.heads).map(([key, head]) => `${head}. ${plain(store[key])}`);

    const takenOf = (store, slot) => {
        const winner = ['none', 'A', 'B'][winnersOf(store)[1] + 1], spoken = name => name === 'none' ? 'neither' : `slot ${name}`;
        return `You took ${spoken(slot)}${slot === winner ? ', as the judge does' : `. The judge takes ${spoken(winner)}`}.`;
    };

    return { lastWrite, boxOf, namesOf, recordsOf, sumsOf, paragraphsOf, takenOf, plain };
}

// ---- cuts

// The statuses that the lesson's picture of a slot allows after k bytes of a write, in the place of a slot of the status before. A header stands
// whole where its last byte that differs is written. So does a record: in a page within the last entry.
function allowedAfter(k, before, { pair, alike, headerWhole }) {
    const blank = before === 'Blank', whole = HEADER + payloadOf(pair), early = alike ? 'Valid' : 'BadPayloadCrc';
    if (k === 0) return [before];
    if (k < 8) return blank ? ['BadMagic', 'BadHeaderCrc'] : [before];
    if (k === 8) return blank ? ['BadHeaderCrc'] : [before];
    if (k < headerWhole) return ['BadHeaderCrc'];
    if (k <= Math.max(HEADER, whole - ENTRY)) return [early];
    return k < whole ? [early, 'Valid'] : ['Valid'];
}

// The same for a set of sectors that are new.
function allowedWith(fresh, before, { differ }) {
    const written = differ.filter(sector => fresh.includes(sector));
    if (written.length === differ.length) return 'Valid';
    if (written.includes(0)) return 'BadPayloadCrc';
    return written.length > 0 && before === 'Valid' ? 'BadPayloadCrc' : before;
}

// A run of cuts in words, by what is shown at one of them.
function runWords({ pair, index }, { words, statuses }) {
    const [, standing, a, b] = /^Pair \d+: (\w+), winner \w+, A (\w+), B (\w+)$/.exec(words[pair]);
    const heal = /^Heal (\w) of (pair \d+)/.exec(words.at(-1));
    const verdict = [a, b][index], status = statuses[2 * pair + index];
    return { verdict, words: `${slotName(index)} ${verdict} (${status}), pair ${pair} ${standing}${heal ? `, heal ${heal[1]} of ${heal[2]}` : ''}` };
}

// The set of sectors at a place of the strip: sector 0 changes once, the last one each time.
const setAt = place => Array.from({ length: SECTORS }, (_, i) => i).filter(i => place >> (SECTORS - 1 - i) & 1);

// Which of the sectors that differ are new in some sets.
function setWords(sets, differ) {
    const words = new Set(sets.map(fresh => listed(fresh.filter(sector => differ.includes(sector)), 'and') || 'none'));
    return `new: ${[...words].sort((one, other) => one.length - other.length || one.localeCompare(other)).join(', or ')}`;
}

module.exports = { SIZE, SECTORS, expectations, allowedAfter, allowedWith, runWords, setAt, setWords, listed };
