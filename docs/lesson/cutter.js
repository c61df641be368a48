// Writes to cut: what the judge says at each cut, as a strip and in words, the bytes of the slot, and the place on the page where a reader
// moves the cut.
'use strict';

const SECTORS = SLOT / SECTOR, SETS = 1 << SECTORS;

// The set of sectors at a place of a strip, and its place: sector 0 changes once in the row of all sets, the last sector each time.
const mirrored = set => Array.from({ length: SECTORS }, (_, i) => set >> i & 1).reduce((sum, bit) => 2 * sum + bit, 0);

// Of a cut after one to seven bytes, in the place of an older record and in a slot that was never written.
const UNPROVED = 'After one to seven bytes the proof says nothing.';
const UNPROVED_OLD = `${UNPROVED} In the place of an older record they change nothing: every slot begins alike.`;
const UNPROVED_BLANK = `${UNPROVED} In a slot that was never written, what stands there is not yet the beginning of a slot.`;

// `view` is docs/lesson/view.js on the medium.
function cuttersOf(medium, C, view) {
    // ---- all cuts of a write

    // What the judge says at each place, as runs of places that leave the same status and get the same answer.
    function runsOf(told, places, cutAt) {
        const { pair, index } = told.write, runs = [];
        let last;
        for (let at = 0; at < places; at++) {
            const store = medium.after(told, cutAt(at)), part = hex(store.parts[pair][index]);
            // Where a slot shows the same the answer is the same, but in pair 0, whose record has the clean mark.
            if (part !== last?.part || pair === 0) {
                const judged = view.judge(store), status = view.word('status', store.parts[pair][index][C.SIO_PART_STATUS]);
                last = { part, status, verdict: view.verdictOf(judged, pair, index), standing: view.standingOf(judged, pair),
                    heal: view.healOf(judged), key: [status, ...view.answerCodes(judged)].join() };
            }
            if (runs.at(-1)?.key === last.key) runs.at(-1).to = at;
            else runs.push({ ...last, from: at, to: at });
        }
        return runs;
    }

    const byBytes = told => runsOf(told, SLOT + 1, at => ({ bytes: at }));
    const bySectors = told => runsOf(told, SETS, at => ({ sectors: mirrored(at) }));
    const lengthOf = run => run.to - run.from + 1;
    const holds = (run, at) => at >= run.from && at <= run.to;

    // The runs with the same answer together, in the order in which each answer comes first.
    function grouped(runs) {
        const groups = new Map();
        for (const run of runs) groups.set(run.key, [...groups.get(run.key) ?? [], run]);
        return Array.from(groups.values(), group => ({ ...group[0], runs: group, count: group.reduce((sum, run) => sum + lengthOf(run), 0) }));
    }

    // ---- in words

    const placesOf = run => `k ${run.from}${run.to > run.from ? ` to ${run.to}` : ''}`;
    const runWords = (told, run) => {
        const { pair, index } = told.write, heal = run.heal ? `, heal ${run.heal.slot} of pair ${run.heal.pair}` : '';
        return `${'AB'[index]} ${run.verdict} (${run.status}), pair ${pair} ${run.standing}${heal}`;
    };

    const oldOf = told => told.before.slots[told.write.pair][told.write.index];
    const isAlike = (told, sector) => told.write.bytes.subarray(sector * SECTOR, (sector + 1) * SECTOR)
        .every((byte, at) => byte === oldOf(told)[sector * SECTOR + at]);

    const listed = (words, last) => words.length < 2 ? words.join() : `${words.slice(0, -1).join(', ')} ${last} ${words.at(-1)}`;
    const different = told => Array.from({ length: SECTORS }, (_, i) => i).filter(i => !isAlike(told, i));
    const differWords = told => `Old and new differ in the sectors ${listed(different(told), 'and')} alone.`;

    // Which of the sectors that are not alike are new in the sets of a group.
    function setWords(told, group) {
        const sets = new Set();
        for (const run of group.runs) {
            for (let at = run.from; at <= run.to; at++) sets.add(listed(different(told).filter(i => mirrored(at) >> i & 1), 'and') || 'none');
        }
        const ordered = [...sets].sort((one, other) => one.length - other.length || one.localeCompare(other));
        return `new: ${ordered.join(', or ')}`;
    }

    // ---- drawn

    // The runs side by side, each at least a few pixels wide unless there are many; `at` is where the cut is now.
    function drawStrip(runs, at) {
        return make('div', { class: `strip ${runs.length > 20 ? 'many' : ''}`, 'aria-hidden': 'true' }, ...runs.map(run =>
            make('i', { class: `${run.verdict} ${holds(run, at) ? 'here' : ''}`, style: `flex-grow: ${lengthOf(run)}` })));
    }

    // The slot byte by byte, a sector in two rows: new bytes high, new ones that are as before half as high, old ones a line.
    function drawBytes(canvas, legend, told, isNew) {
        const columns = SECTOR / 2, row = 9, width = canvas.clientWidth, scale = devicePixelRatio || 1;
        if (width === 0) return;
        canvas.width = width * scale;
        canvas.height = SLOT / columns * row * scale;
        const g = canvas.getContext('2d'), cell = width / columns, counts = [0, 0, 0], old = oldOf(told), style = getComputedStyle(canvas);
        const colours = ['--written', '--same', '--unwritten'].map(name => style.getPropertyValue(name));
        g.scale(scale, scale);
        for (let at = 0; at < SLOT; at++) {
            const kind = !isNew(at) ? 2 : told.write.bytes[at] === old[at] ? 1 : 0, tall = [8, 4, 1][kind];
            counts[kind]++;
            g.fillStyle = colours[kind];
            g.fillRect(at % columns * cell, (Math.floor(at / columns) + 1) * row - tall, cell - (cell > 3 ? 0.7 : 0), tall);
        }
        const said = [`written: ${counts[0]} bytes`, `written, the same as before: ${counts[1]}`, `not written: ${counts[2]}`];
        canvas.setAttribute('aria-label', said.join(', '));
        legend.replaceChildren(...['high', 'half', 'low'].map((kind, i) => make('span', { class: kind }, said[i])));
    }

    // The controls of a cutter: by bytes a slider and a number, by sectors a button for each. `moved` is called with what changed.
    function controls(name, moved) {
        const bounds = { min: 0, max: SLOT, step: 1 };
        const range = make('input', { type: 'range', ...bounds, id: `${name}-range`, input: () => moved({ k: Number(range.value) }) });
        const exact = make('input', { type: 'number', ...bounds, id: `${name}-exact`,
            change: () => moved({ k: Math.min(Math.max(Math.trunc(Number(exact.value)), 0), SLOT) }) });
        const kinds = ['bytes', 'sectors'].map(kind => make('input', { type: 'radio', name: `${name}-kind`, id: `${name}-${kind}`, value: kind,
            change: () => moved({ sectors: kind === 'sectors' }) }));
        const toggles = Array.from({ length: SECTORS }, (_, i) =>
            make('button', { type: 'button', class: 'sector', click: () => moved({ toggled: i }) }));
        const bytesForm = make('div', { class: 'byBytes' }, make('label', { for: range.id }, `first bytes that are new, of ${SLOT}`), range,
            make('label', { for: exact.id, class: 'exact' }, `or exactly, 0 to ${SLOT}: k = `, exact));
        const sectorsForm = make('div', { class: 'bySectors', role: 'group',
            'aria-label': `sectors of ${SECTOR} bytes: press one to make it new or old` }, ...toggles);
        const choice = make('fieldset', null, make('legend', null, 'The power goes off'),
            make('label', { for: kinds[0].id }, kinds[0], ' while the bytes are written in order'),
            make('label', { for: kinds[1].id }, kinds[1], ' in memory that finishes its sectors in its own order'));

        function show(told, { k, set, sectors }, verdict) {
            kinds.forEach(kind => { kind.checked = (kind.value === 'sectors') === sectors; });
            bytesForm.hidden = sectors;
            sectorsForm.hidden = !sectors;
            range.value = exact.value = k;
            range.setAttribute('aria-valuetext', `${k} bytes new, slot ${'AB'[told.write.index]} is ${verdict}`);
            if (sectors) toggles.forEach((toggle, i) => {
                const isNew = (set >> i & 1) === 1;
                toggle.setAttribute('aria-pressed', isNew ? 'true' : 'false');
                toggle.textContent = `sector ${i}: ${isNew ? 'new' : 'old'}${isAlike(told, i) ? ', both alike' : ''}`;
            });
        }

        return { nodes: [choice, bytesForm, sectorsForm], show };
    }

    // The runs of a write as a strip and a list, drawn anew where the cut comes to another run.
    function runList(go) {
        const place = make('div', { class: 'bands' });
        let told, bytes, sectors, shown;

        function show(now, at, inSectors) {
            if (now !== told) [told, bytes, sectors, shown] = [now, undefined, undefined, undefined];
            const runs = inSectors ? sectors ??= bySectors(told) : bytes ??= byBytes(told), here = runs.find(run => holds(run, at));
            if (here === shown) return;
            shown = here;
            const focused = Array.from(place.querySelectorAll('button')).indexOf(document.activeElement);
            const lines = inSectors
                ? grouped(runs).map(group => line(group, group.runs.includes(here), `${group.count} of ${SETS} sets`, setWords(told, group)))
                : runs.map(run => line(run, run === here, placesOf(run)));
            place.replaceChildren(drawStrip(runs, at), make('ul', { class: 'runs' }, ...lines), make('p', { class: 'hint' },
                inSectors ? differWords(told) : 'A part stands whole a few bytes before its end where old and new bytes are alike.'));
            place.querySelectorAll('button')[focused]?.focus();
        }

        function line(run, isHere, label, ...more) {
            return make('li', null, make('button', { type: 'button', class: run.verdict, 'aria-current': isHere ? 'true' : false,
                click: () => go(run.from) }, label), make('span', null, [runWords(told, run), ...more].join('; '),
                make('small', null, `${run.verdict}: ${view.meaningOf(run.verdict)}`)));
        }

        return { place, show };
    }

    // ---- a cutter

    // A write that can be cut anywhere, also by sectors, and the write that heals after it, which can be cut too.
    function drawCutter(start, name) {
        const title = make('h4', { tabindex: -1 }), live = make('div', { class: 'now' });
        const [plan, harm, note, place, caption] = ['plan', 'harm', 'note', 'at', 'caption'].map(kind => make('p', { class: kind }));
        const canvas = make('canvas', { role: 'img', 'aria-label': 'bytes' }), legend = make('p', { class: 'legend' });
        let told, at, healing = 0, painting = false;

        const { nodes, show } = controls(name, ({ toggled, ...changed }) =>
            move(toggled === undefined ? changed : { set: at.set ^ 1 << toggled }));
        const runs = runList(to => move(at.sectors ? { set: mirrored(to) } : { k: to }));
        const root = make('div', { class: 'cutter' }, title, plan, harm, ...nodes, place, runs.place, note, caption, canvas, legend, live);

        function begin(next, cut) {
            told = next;
            at = { k: cut.bytes ?? SLOT, set: cut.sectors ?? 0, sectors: cut.sectors !== undefined };
            title.textContent = `Being written: ${told.text}`;
            plan.textContent = view.planWords(told);
            harm.textContent = told.harm.length > 0 ? `Damaged after it: ${told.harm.map(({ text }) => text).join(' ')}` : '';
            caption.textContent = `The ${SLOT} bytes of slot ${'AB'[told.write.index]}, ${SECTOR / 2} in a row:`;
            draw();
        }

        function move(changed) {
            at = { ...at, ...changed };
            draw();
        }

        function draw() {
            const store = medium.after(told, at.sectors ? { sectors: at.set } : { bytes: at.k }), judged = view.judge(store);
            const { pair, index } = told.write, isBlank = told.before.parts[pair][index][C.SIO_PART_STATUS] === C.SIO_STATUS_BLANK;
            show(told, at, view.verdictOf(judged, pair, index));
            runs.show(told, at.sectors ? mirrored(at.set) : at.k, at.sectors);
            place.textContent = at.sectors ? `New sectors: ${listed(different(told).filter(i => at.set >> i & 1), 'and') || 'none'}.`
                : `Cut after k = ${at.k} of ${SLOT} bytes.`;
            note.textContent = at.sectors || at.k < 1 || at.k > 7 ? '' : isBlank ? UNPROVED_BLANK : UNPROVED_OLD;
            const folds = ['.codes', '.records'], open = folds.filter(fold => live.querySelector(fold)?.open);
            live.replaceChildren(view.drawSlots(told, store, judged), view.drawAnswer(judged), view.drawRecords(store),
                view.drawSums(told, store, judged), drawNext(store, judged));
            for (const fold of open) live.querySelector(fold).open = true;
            // Once for what is seen, however often the cut moves before.
            if (!painting) requestAnimationFrame(paint);
            painting = true;
        }

        function paint() {
            painting = false;
            drawBytes(canvas, legend, told, at.sectors ? byte => at.set >> Math.floor(byte / SECTOR) & 1 : byte => byte < at.k);
        }

        // What follows begins at the head of the cutter, whole, for the reader to cut.
        function next(write) {
            begin(write, { bytes: SLOT });
            title.focus({ preventScroll: true });
            root.scrollIntoView({ block: 'start' });
        }

        function heal(store, named) {
            const write = medium.healOf(store), fares = write.cents === undefined ? '' : `, fares at ${write.cents} cents,`;
            healing += 1;
            next({ before: store, write, writes: [...view.finished(told, store), write], harm: [],
                text: `the winner's record${fares} to slot ${named.slot} of pair ${named.pair}, to heal it${healing > 1 ? ', once more' : ''}.` });
        }

        function again() {
            healing = 0;
            next(start);
        }

        // What may be done next: heal the slot that is named, by a write that can be cut as well, or begin again.
        function drawNext(store, judged) {
            const named = view.healOf(judged);
            return make('div', { class: 'go' },
                named ? make('button', { type: 'button', class: 'heal', click: () => heal(store, named) },
                    `Heal slot ${named.slot} of pair ${named.pair}, and cut that write too`) : make('span', null, 'Nothing to heal.'),
                healing > 0 ? make('button', { type: 'button', class: 'again', click: again }, 'Begin again') : '');
        }

        addEventListener('resize', () => { if (root.isConnected) paint(); });
        begin(start, start.cut);
        return root;
    }

    // ---- why a bench is no proof

    // Both strips of a write, and how many tries meet each run once, on average, where every cut is as likely as any other.
    function drawBench(place, told) {
        const bytes = byBytes(told), sectors = bySectors(told), tries = (count, all) => [`${count} of ${all}`, (all / count).toFixed(1)];
        // To meet each of n once takes n (1 + 1/2 + .. + 1/n) tries.
        const all = SLOT + 1, shares = Array.from({ length: all }, (_, i) => 1 / (i + 1));
        const each = Math.round(all * shares.reduce((sum, share) => sum + share) / 100) * 100;
        place.append(
            make('h3', null, 'Any byte'), drawStrip(bytes),
            makeTable(['cut after', 'what the judge says', 'so many cuts', 'tries to meet one'],
                bytes.map(run => [placesOf(run), runWords(told, run), ...tries(lengthOf(run), all)])),
            make('p', null, `One given cut is met once in ${all} tries. To meet each of them once takes some ${each}, for one write in one store.`),
            make('h3', null, 'Any sector'), drawStrip(sectors), make('p', null, differWords(told)),
            makeTable(['sectors', 'what the judge says', 'so many sets', 'tries to meet one'],
                grouped(sectors).map(group => [setWords(told, group), runWords(told, group), ...tries(group.count, SETS)])));
    }

    return { drawCutter, drawBench };
}
