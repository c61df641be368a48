// The page: the store to cut, the stores of the lesson with their question, what the page checks of itself, and how it begins.
'use strict';

function page(library, C, lesson) {
    const medium = host(library, C, lesson), view = viewOf(medium, C, lesson), { drawCutter, drawBench } = cuttersOf(medium, C, view);
    const named = name => lesson.stores.find(story => story.name === name);

    // ---- the stores of the lesson

    // A store as it is found, and what is asked of it: which slot the reader takes. A question of the lesson asks by its own words. The answer
    // is shown once that is answered, and on paper.
    function drawStory(section, story) {
        const told = medium.tell(story), store = medium.after(told, told.cut), judged = view.judge(store);
        const [found, guess, answer, cut] = ['.found', '.guess', '.told', '.try'].map(part => section.querySelector(part));
        const taken = make('p', { class: 'taken', tabindex: -1, role: 'status' }), isQuestion = story.name.startsWith('question');
        const button = (label, click) => make('button', { type: 'button', 'data-take': 'none', click }, label);
        const ask = isQuestion ? make('p', null, 'Answer it first, then ', button('see the answer', () => show('')))
            : make('p', null, 'From which slot of pair 1 would you take the fares? Click on it, or say ', button('from neither', () => take('none')));

        function take(slot) {
            const winner = view.winnerOf(judged, 1), spoken = name => name === 'none' ? 'neither' : `slot ${name}`;
            show(`You took ${spoken(slot)}${slot === winner ? ', as the judge does' : `. The judge takes ${spoken(winner)}`}.`);
        }

        function show(words) {
            taken.textContent = words;
            reveal(true);
            taken.focus({ preventScroll: true });
        }

        function reveal(shown) {
            found.replaceChildren(view.drawSlots(told, store, shown ? judged : null, shown || isQuestion ? undefined : take));
            ask.hidden = shown;
            answer.hidden = !shown;
        }

        reveal(false);
        guess.append(ask, taken);
        section.querySelector('.judged').append(view.drawAnswer(judged), view.drawRecords(store));
        section.querySelector('.sums').append(view.drawSums(told, store, judged));
        cut.addEventListener('toggle', () => {
            if (cut.open && !cut.querySelector('.cutter')) cut.append(drawCutter(told, story.name));
        });
        return { isShown: () => !answer.hidden, reveal };
    }

    // On paper each answer is shown, and nothing is folded in that the text speaks of. On the screen all is then as it was.
    function printAll(stories) {
        let waiting = [], folded = [];
        addEventListener('beforeprint', () => {
            waiting = stories.filter(story => !story.isShown());
            folded = Array.from(document.querySelectorAll('.pairs, #words details')).filter(fold => !fold.open);
            for (const story of waiting) story.reveal(true);
            for (const fold of folded) fold.open = true;
        });
        addEventListener('afterprint', () => {
            for (const story of waiting) story.reveal(false);
            for (const fold of folded) fold.open = false;
        });
    }

    // ---- what the page checks of itself

    // README's example, from its text to the codes of its answer.
    function exampleCodes({ input }) {
        const [mark, ...lines] = input.trim().split('\n'), verdicts = new Uint8Array(C.SIO_VERDICT_LEN * lines.length);
        const judgement = new BigUint64Array(C.SIO_JUDGEMENT_VALUES), frames = lines.join('').match(/../g).map(digits => parseInt(digits, 16));
        const refusal = library.sio_judge(Uint8Array.from(frames), parseInt(mark, 16), verdicts, judgement);
        if (refusal !== 0) throw new Error(`the judge refuses README's store with ${refusal}`);
        return view.answerCodes({ verdicts, judgement: Array.from(judgement, Number), pairs: lines.length }).join('\n') + '\n';
    }

    function checkItself() {
        const insist = (holds, complaint) => { if (!holds) throw new Error(complaint); };
        insist(library.sio_version() === C.SIO_VERSION, 'the module is of another version than its header');
        insist(library.sio_crc32c(new Uint8Array(32)) === 0x8a9136aa, 'the checksum of 32 zeros is not that of RFC 3720');
        insist(exampleCodes(lesson.example) === lesson.example.output, "README's store has not README's answer");
        for (const story of lesson.stores) {
            const told = medium.tell(story), words = view.answerWords(view.judge(medium.after(told, told.cut)));
            insist(words.join('\n') === story.answer.map(line => line.words).join('\n'), `${story.name} has another answer than the lesson says`);
        }
    }

    checkItself();
    document.getElementById('checked').textContent = "Checked when this page was loaded: the checksum of 32 zeros is that of RFC 3720, README's "
        + 'store has README\'s answer, and the stores above have the answers of the lesson.';
    document.querySelector('main').hidden = false;
    const told = medium.tell(named('store-1'));
    document.getElementById('cutter').append(drawCutter({ ...told, cut: { bytes: 632 } }, 'cut'));
    printAll(Array.from(document.querySelectorAll('section.store'), section => drawStory(section, named(section.id))));
    drawBench(document.getElementById('bench-runs'), told);
}

// Ends with a sentence in the place of the one that stands there while nothing has begun.
function stop(sentence, fault) {
    document.body.dataset.fault = fault.message;
    document.getElementById('fault').textContent = `${sentence} (${fault.message})`;
    document.querySelector('main').hidden = true;
}

// The module as it was built where the browser has 64-bit memories, else the one rewritten; `?memory=32` asks for the second.
async function start() {
    const textOf = id => document.getElementById(id).textContent;
    const bytesOf = id => Uint8Array.from(atob(textOf(id).trim()), letter => letter.charCodeAt(0));
    const { signatures, constants } = JSON.parse(textOf('header'));
    let library, wide;
    try {
        wide = new URLSearchParams(location.search).get('memory') !== '32' && WebAssembly.validate(bytesOf('built'));
        library = await instantiate(bytesOf(wide ? 'built' : 'narrow'), signatures);
    } catch (fault) {
        stop('This page cannot run here: it needs a browser of the year 2022 or later, with WebAssembly.', fault);
        return;
    }
    try {
        page(library, constants, JSON.parse(textOf('lesson')));
    } catch (fault) {
        stop('This page shows nothing, since it does not pass its own checks.', fault);
        return;
    }
    document.getElementById('fault').hidden = true;
    document.getElementById('memory').textContent = wide ? 'The module runs here as it was built, on a 64-bit memory.'
        : 'The module runs here rewritten to a 32-bit memory.';
    document.body.dataset.ready = wide ? '64' : '32';
}

start();
