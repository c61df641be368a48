'use strict';
// Drives chromium over --remote-debugging-pipe without an npm package, and checks a page: contrast, overflow, names, keyboard.
// Commands go out on file descriptor 3, answers and events come in on 4; each is JSON with a zero byte behind it.

const { spawn } = require('node:child_process');
const fs = require('node:fs');
const os = require('node:os');
const path = require('node:path');

const FLAGS = ['--headless=new', '--remote-debugging-pipe', '--no-first-run', '--disable-gpu', '--hide-scrollbars', '--mute-audio',
    '--disable-dev-shm-usage', '--disable-background-networking', '--disable-component-update', '--disable-sync', '--disable-extensions',
    '--password-store=basic', '--host-resolver-rules=MAP * ~NOTFOUND', ...(process.getuid?.() === 0 ? ['--no-sandbox'] : [])];

// Browsers that run. They end with this process, however it ends.
const running = new Set();

function endAll() {
    for (const browser of running) browser.end();
}

function launch({ limit, onEvent }) {
    if (!process.listeners('exit').includes(endAll)) {
        process.on('exit', endAll);
        for (const signal of ['SIGINT', 'SIGTERM', 'SIGHUP']) process.once(signal, () => process.exit(128 + os.constants.signals[signal]));
    }
    // Chromium keeps a socket in here, and a socket's path has at most 107 characters.
    const profile = fs.mkdtempSync(path.join(os.tmpdir().length < 45 ? os.tmpdir() : '/tmp', 'chromium-'));
    const command = [process.env.CHROMIUM || 'chromium', ...FLAGS, `--user-data-dir=${profile}`, 'about:blank'];
    // Chromium ends when its pipe is closed, and the shell then removes the profile: so nothing stays even if this process is killed.
    const child = spawn('sh', ['-c', '"$@"; rm -rf "$0"', profile, ...command], {
        detached: true,
        stdio: ['ignore', 'ignore', 'pipe', 'pipe', 'pipe'],
        env: { ...process.env, HOME: profile, TMPDIR: profile, XDG_CONFIG_HOME: profile, XDG_CACHE_HOME: profile },
    });
    const [, , errors, input, output] = child.stdio;
    const waiting = new Map();
    let last = 0, said = '', parts = [], ended = '';

    const exited = new Promise(resolve => {
        const stop = why => {
            ended = ended || `chromium has ended (${why}) ${said.slice(-1000)}`.trim();
            for (const answer of waiting.values()) answer({ error: { message: ended } });
            resolve();
        };
        child.on('error', error => stop(error.message));
        child.on('exit', (code, signal) => setImmediate(stop, signal || `status ${code}`));
    });
    for (const pipe of [input, output]) pipe.on('error', () => {});
    errors.on('data', text => { said = (said + text).slice(-4000); });
    output.on('data', chunk => {
        for (let end; (end = chunk.indexOf(0)) >= 0; chunk = chunk.subarray(end + 1)) {
            const message = JSON.parse(Buffer.concat([...parts, chunk.subarray(0, end)]).toString());
            parts = [];
            if (message.id && waiting.has(message.id)) waiting.get(message.id)(message);
            else if (message.method) onEvent(message.method, message.params, message.sessionId);
        }
        parts.push(chunk);
    });
    // A browser that was left open does not keep this process alive; a command that waits does, by its timer.
    for (const handle of [child, errors, input, output]) handle.unref();

    const browser = {
        async send(method, params = {}, sessionId = undefined, what = '') {
            if (ended) throw new Error(`${method}: ${ended}`);
            const id = ++last;
            let timer;
            const message = await new Promise(answer => {
                const late = { error: { message: `no answer within ${limit / 1000} s ${what}`.trim() } };
                timer = setTimeout(answer, limit, late);
                waiting.set(id, answer);
                input.write(JSON.stringify({ id, method, params, sessionId }) + '\0');
            });
            clearTimeout(timer);
            waiting.delete(id);
            if (message.error) throw new Error(`${method}: ${message.error.message}`);
            return message.result;
        },
        // Ends it at once, with all processes of its group; only once, since the number may be another's later.
        end() {
            if (!running.delete(browser)) return;
            try { process.kill(-child.pid, 'SIGKILL'); } catch { /* it has ended */ }
            fs.rmSync(profile, { recursive: true, force: true, maxRetries: 20, retryDelay: 50 });
        },
        async close() {
            if (!ended) browser.send('Browser.close').catch(() => {});
            const timer = setTimeout(browser.end, 5000);
            await exited;
            clearTimeout(timer);
            browser.end();
        },
    };
    running.add(browser);
    return browser;
}

// The fields of a key event.
const TAB = { key: 'Tab', code: 'Tab', windowsVirtualKeyCode: 9 };

// Opens a file: URL and gives the page after its load event. `limit` is the time in ms that each command may take.
async function openPage(fileUrl, { width, height, limit = 20000 }) {
    const own = new URL(fileUrl).href.replace(/[?#].*/s, ''), faults = [];
    const request = url => {
        if (!/^(data|blob):/.test(url) && url.replace(/[?#].*/s, '') !== own) faults.push(`request: ${url}`);
    };
    const say = thing => thing.description || String(thing.unserializableValue || thing.value);
    const thrown = details => details.exception ? say(details.exception) : details.text;
    const events = {
        'Runtime.exceptionThrown': e => faults.push(`exception: ${thrown(e.exceptionDetails)}`),
        'Runtime.consoleAPICalled': e => {
            if (e.type === 'error' || e.type === 'assert') faults.push(`console.${e.type}: ${e.args.map(say).join(' ')}`);
        },
        'Log.entryAdded': ({ entry }) => entry.level === 'error' && faults.push(`console: ${entry.text} ${entry.url || ''}`.trim()),
        'Network.requestWillBeSent': e => request(e.request.url),
        'Network.webSocketCreated': e => request(e.url),
        'Network.webTransportCreated': e => request(e.url),
        'Inspector.targetCrashed': () => faults.push('the page crashed'),
        'Page.javascriptDialogOpening': (e, session) => {
            faults.push(`dialog: ${e.message}`);
            browser.send('Page.handleJavaScriptDialog', { accept: false }, session).catch(() => {});
        },
        // Workers and frames in a process of their own wait until they are watched too.
        'Target.attachedToTarget': e => { if (e.waitingForDebugger) watch(e.sessionId).catch(() => {}); },
    };
    const browser = launch({ limit, onEvent: (method, params, session) => events[method] && events[method](params, session) });
    const watch = session => Promise.all([
        ...['Runtime', 'Network', 'Log'].map(domain => browser.send(`${domain}.enable`, {}, session).catch(() => {})),
        browser.send('Target.setAutoAttach', { autoAttach: true, waitForDebuggerOnStart: true, flatten: true }, session).catch(() => {}),
        browser.send('Runtime.runIfWaitingForDebugger', {}, session),
    ]);
    let session;
    const send = (method, params, what) => browser.send(method, params, session, what);

    const page = {
        faults,
        send,
        // A function or its source is called in the page; what it gives comes back as JSON.
        async evaluate(what) {
            const call = { expression: `(${what})()`, awaitPromise: true, returnByValue: true };
            const { result, exceptionDetails } = await send('Runtime.evaluate', call, `from ${String(what).slice(0, 200)}`);
            if (exceptionDetails) throw new Error(`in the page: ${thrown(exceptionDetails)}`);
            return result.value;
        },
        // Two frames later the page has its new layout, and what it does on resize is done.
        settle: () => page.evaluate(() => new Promise(done => requestAnimationFrame(() => requestAnimationFrame(() => done())))),
        async resize(w, h) {
            await send('Emulation.setDeviceMetricsOverride', { width: w, height: h, deviceScaleFactor: 1, mobile: false });
            await page.settle();
        },
        async print() {
            return Buffer.from((await send('Page.printToPDF', { printBackground: true, preferCSSPageSize: true })).data, 'base64');
        },
        async screenshot() {
            return Buffer.from((await send('Page.captureScreenshot', { format: 'png' })).data, 'base64');
        },
        async pressTab() {
            await send('Input.dispatchKeyEvent', { ...TAB, type: 'rawKeyDown' });
            await send('Input.dispatchKeyEvent', { ...TAB, type: 'keyUp' });
        },
        close: () => browser.close(),
    };

    try {
        const { targetId } = await send('Target.createTarget', { url: 'about:blank' });
        session = (await send('Target.attachToTarget', { targetId, flatten: true })).sessionId;
        await Promise.all([send('Page.enable'), watch(session), send('Emulation.setFocusEmulationEnabled', { enabled: true }),
            send('Emulation.setDeviceMetricsOverride', { width, height, deviceScaleFactor: 1, mobile: false })]);
        const { errorText } = await send('Page.navigate', { url: fileUrl });
        if (errorText) throw new Error(`${fileUrl}: ${errorText}`);
        await page.evaluate(() => new Promise(done => {
            if (document.readyState === 'complete') done();
            else addEventListener('load', () => setTimeout(done));
        }));
        await page.settle();
        return page;
    } catch (error) {
        await browser.close();
        throw error;
    }
}

// The checks. This function runs in the page: its source is sent with each check, so it uses nothing from this file.
function inPage() {
    const all = selector => [...document.querySelectorAll(selector)];
    const style = getComputedStyle;
    const short = text => text.replace(/\s+/g, ' ').trim().replace(/^(.{40}).{3,}$/, '$1...');
    const name = el => el.localName + (el.id ? '#' + el.id : [...el.classList].map(c => '.' + c).join('')) +
        (el.type && el.localName === 'input' ? `[${el.type}]` : '') + (short(el.textContent) ? ` "${short(el.textContent)}"` : '');
    const chain = el => el ? [el, ...chain(el.parentElement)] : [];
    // A box of a pixel keeps text for screen readers only.
    const pixel = el => el instanceof HTMLElement && style(el).overflow !== 'visible' && style(el).display !== 'inline' &&
        Math.min(el.clientWidth, el.clientHeight) <= 1;
    const seen = el => el.checkVisibility({ opacityProperty: true, visibilityProperty: true }) && !chain(el).some(pixel);
    const boxes = text => { const range = document.createRange(); range.selectNodeContents(text); return [...range.getClientRects()]; };
    const texts = () => {
        const list = [], walk = document.createTreeWalker(document.body, NodeFilter.SHOW_TEXT);
        while (walk.nextNode()) list.push(walk.currentNode);
        return list.filter(text => text.data.trim() && boxes(text).some(box => box.right > 0 && box.width > 0) && seen(text.parentElement));
    };

    const brush = document.createElement('canvas').getContext('2d', { willReadFrequently: true });
    const colour = text => {
        const plain = /^rgba?\(([^)]*)\)$/.exec(text);
        if (plain) return [...plain[1].split(/[\s,/]+/).map(Number), 1].slice(0, 4);
        brush.clearRect(0, 0, 1, 1);
        brush.fillStyle = text;
        brush.fillRect(0, 0, 1, 1);
        const [r, g, b, a] = brush.getImageData(0, 0, 1, 1).data;
        return [r, g, b, a / 255];
    };
    const over = (top, under) => {
        const rest = under[3] * (1 - top[3]), a = top[3] + rest;
        return a ? [0, 1, 2].map(i => (top[i] * top[3] + under[i] * rest) / a).concat(a) : [0, 0, 0, 0];
    };
    const luminance = rgb => [0.2126, 0.7152, 0.0722].reduce((sum, share, i) => {
        const v = rgb[i] / 255;
        return sum + share * (v <= 0.04045 ? v / 12.92 : ((v + 0.055) / 1.055) ** 2.4);
    }, 0);
    // The lowest ratio of a text to its background. Two pixels, one with the text and one without, are laid over every background
    // on the way up, once for each colour of a gradient. null where a picture is behind the text.
    const ratio = (el, ink, own) => {
        let pairs = [[ink, [0, 0, 0, 0]]];
        const lay = under => { pairs = pairs.flatMap(pair => under.map(u => pair.map(top => over(top, u)))); };
        if (own) lay([colour(own)]);
        for (const e of chain(el)) {
            const s = style(e), painted = e instanceof HTMLElement || e.localName === 'svg';
            if (painted && s.backgroundImage !== 'none' && pairs.some(([, pixel]) => pixel[3] < 1)) {
                const stops = s.backgroundImage.match(/\b(rgba?|color|(ok)?(lab|lch))\([^()]*\)/g);
                if (!stops || s.backgroundImage.includes('url(')) return null;
                lay(stops.map(colour));
            }
            if (painted) lay([colour(s.backgroundColor)]);
            pairs = pairs.map(pair => pair.map(([r, g, b, a]) => [r, g, b, a * s.opacity]));
        }
        lay([colour('white')]);
        return Math.min(...pairs.map(pair => pair.map(p => luminance(p) + 0.05).sort((a, b) => b - a)).map(([high, low]) => high / low));
    };
    const contrast = () => {
        const list = texts().map(({ parentElement: el, data }) => {
            const s = style(el), drawn = el instanceof SVGElement;
            return { el, text: data, ink: drawn ? s.fill : s.webkitTextFillColor, alpha: drawn ? s.fillOpacity : 1 };
        });
        for (const el of all('input, select, textarea').filter(seen)) {
            if (/^(range|checkbox|radio|color|file|image|hidden)$/.test(el.type)) continue;
            const text = el.localName === 'select' ? el.selectedOptions[0]?.text : el.value;
            if (text || el.placeholder) list.push({ el, text: text || el.placeholder, ink: style(el, text ? null : '::placeholder').color });
        }
        for (const el of all('body, body *')) {
            for (const s of [style(el, '::before'), style(el, '::after')]) {
                const { content: text, color: ink, backgroundColor: own } = s;
                if (/"[^"]*[\p{L}\p{N}]/u.test(text) && seen(el)) list.push({ el, text, ink, own });
            }
        }
        return list.flatMap(({ el, text, ink, alpha = 1, own }) => {
            if (ink === 'none' || el.closest(':disabled')) return [];
            const what = `${name(el)}: text "${short(text)}"`;
            if (ink.startsWith('url(')) return `${what} has no plain colour`;
            const [r, g, b, a] = colour(ink);
            const found = a * alpha > 0 ? ratio(el, [r, g, b, a * alpha], own) : 21;
            if (found === null) return `${what} is over a picture`;
            return found < 4.5 ? `${what} has contrast ${(Math.floor(found * 100) / 100).toFixed(2)}, less than 4.5 (colour ${ink})` : [];
        });
    };

    const overflow = () => {
        scrollTo(0, 0);
        const wide = innerWidth, page = document.documentElement.scrollWidth;
        const found = page > wide ? [`the page is ${page} wide in a window of ${wide}`] : [];
        const free = el => chain(el).slice(1).every(e => e.matches('html, body') || style(e).overflowX === 'visible');
        const out = box => box.width > 0 && (box.right > wide + 0.5 || (box.left < -0.5 && box.right > 0.5));
        const report = (el, { left, right }) =>
            found.push(`${name(el)} goes from ${Math.round(left)} to ${Math.round(right)} in a window of ${wide}`);
        for (const el of all('body *')) {
            const box = el.getBoundingClientRect();
            if (!el.matches('svg *') && out(box) && seen(el) && free(el)) report(el, box);
            const cut = /hidden|clip/.test(style(el).overflowX) && el.scrollWidth > el.clientWidth && !el.matches('input, textarea, svg, svg *');
            if (cut && seen(el) && el.innerText?.trim()) {
                found.push(`${name(el)} is cut: its content is ${el.scrollWidth} wide in ${el.clientWidth}`);
            }
        }
        // A long word can go beyond the box of its element.
        for (const text of texts()) {
            const el = text.parentElement, box = boxes(text).find(out), hides = !el.matches('body') && style(el).overflowX !== 'visible';
            if (box && !el.closest('svg') && !hides && !out(el.getBoundingClientRect()) && free(el)) report(el, box);
        }
        return found;
    };

    const names = () => {
        const text = node => {
            if (node.nodeType === Node.TEXT_NODE) return node.data;
            if (node.nodeType !== Node.ELEMENT_NODE || node.getAttribute('aria-hidden') === 'true') return '';
            if (node.localName === 'svg') return node.getAttribute('aria-label') || node.querySelector('title')?.textContent || '';
            if (!node.checkVisibility({ visibilityProperty: true }) || node.matches('select, textarea, input, script, style')) return '';
            return node.getAttribute('aria-label') || node.alt || [...node.childNodes].map(text).join(' ') || '';
        };
        const called = id => document.getElementById(id)?.textContent || '';
        const get = (el, attribute) => el.getAttribute(attribute) || '';
        const given = el => get(el, 'aria-labelledby').split(/\s+/).map(called).join('') + get(el, 'aria-label');
        const own = el => {
            if (el.matches('[type=submit], [type=reset]') && el.localName === 'input') return el.getAttribute('value') ?? el.type;
            if (el.matches('input[type=button]')) return el.value;
            if (el.matches('img, input[type=image]')) return el.alt || (el.matches('img[alt=""]:not([role=img])') ? 'decoration' : '');
            if (el.matches('input, select, textarea')) return [...el.labels].map(text).join('');
            return text(el) + (el.title || '');
        };
        const asked = 'button, input:not([type=hidden]), select, textarea, summary, a[href], img, iframe, ' +
            ['img', 'button', 'link', 'tab', 'checkbox', 'switch', 'slider', 'radio', 'menuitem'].map(role => `[role=${role}]`);
        const shown = el => el.checkVisibility({ visibilityProperty: true }) && !el.closest('[aria-hidden=true]');
        return all(asked).filter(el => shown(el) && !(given(el) + own(el)).trim()).map(el => {
            const what = el.matches('input, select, textarea') ? 'label' : el.localName === 'img' ? 'alt text' : 'name';
            return `${name(el)} has no ${what}: ${short(el.outerHTML)}`;
        });
    };

    // What shows the focus on an element: its outline and its shadow, each '' where there is none.
    const look = el => {
        const s = style(el), outline = s.outlineStyle !== 'none' && parseFloat(s.outlineWidth) > 0 && colour(s.outlineColor)[3] > 0;
        return [outline ? s.outline : '', s.boxShadow === 'none' ? '' : s.boxShadow];
    };
    const marked = el => [el, ...(el.labels || [])];
    // In these the arrow keys go from one element to the next.
    const composite = ['tablist', 'toolbar', 'radiogroup', 'menu', 'menubar', 'listbox', 'grid', 'tree'].map(r => `[role=${r}] *`).join();
    const start = () => {
        const native = 'a[href], button, input, select, textarea, details > summary:first-of-type, iframe, audio[controls], video[controls]';
        const stops = all(`${native}, [tabindex], [contenteditable]:not([contenteditable=false])`).filter(el =>
            !el.matches(':disabled, [type=hidden], [inert], [inert] *') && el.checkVisibility({ visibilityProperty: true }) &&
            (el.tabIndex >= 0 || (el.matches(native) && !el.matches(composite))));
        // Tab reaches one radio of a group: the one that is checked, else the first.
        const group = el => stops.filter(e => e.type === 'radio' && e.name === el.name && e.form === el.form);
        const expected = stops.filter(el => el.type !== 'radio' || !el.name || el === (group(el).find(e => e.checked) || group(el)[0]));
        const top = document.createElement('span');
        top.tabIndex = -1;
        document.body.prepend(top);
        top.focus();
        const before = new Map(all('body *').map(el => [el, look(el)]));
        top.remove();
        globalThis.keyboardCheck = { expected, before, reached: [], wrong: [], same: 0 };
        return expected.length;
    };
    // After each Tab; true when there is nothing more to reach.
    const step = () => {
        const { before, reached, wrong } = keyboardCheck, el = document.activeElement, last = reached[reached.length - 1];
        if (!el || el === document.body || el === document.documentElement) return true;
        if (el === last) {
            // A date has several fields, a player several buttons, all of one element.
            if (++keyboardCheck.same > 12) wrong.push(`${name(el)} keeps the focus at Tab`);
            return keyboardCheck.same > 12;
        }
        if (reached.includes(el)) {
            if (el !== reached[0]) wrong.push(`${name(el)} is reached twice`);
            return true;
        }
        keyboardCheck.same = 0;
        for (const change of document.getAnimations()) if (change instanceof CSSTransition) change.finish();
        const shows = e => seen(e) && look(e).some((now, i) => now && now !== before.get(e)?.[i]);
        if (!marked(el).some(shows)) wrong.push(`${name(el)} does not show that it has the focus`);
        reached.push(el);
        return false;
    };
    const finish = () => {
        const { expected, reached, wrong } = keyboardCheck;
        reached.forEach((el, i) => {
            const last = reached[i - 1];
            const early = last && el.compareDocumentPosition(last) & Node.DOCUMENT_POSITION_FOLLOWING;
            if (early) wrong.push(`${name(el)} is reached after ${name(last)}, which stands behind it`);
        });
        document.activeElement?.blur();
        scrollTo(0, 0);
        delete globalThis.keyboardCheck;
        return [...wrong, ...expected.filter(el => !reached.includes(el)).map(el => `${name(el)} is not reached by Tab`)];
    };
    return { contrast, overflow, names, start, step, finish };
}

const check = (page, what) => page.evaluate(`() => (${inPage})().${what}()`);
const contrast = page => check(page, 'contrast');
const overflow = page => check(page, 'overflow');
const names = page => check(page, 'names');

async function keyboard(page) {
    const most = 20 * await check(page, 'start') + 200;
    for (let i = 0; i < most; i++) {
        await page.pressTab();
        if (await check(page, 'step')) break;
    }
    return check(page, 'finish');
}

module.exports = { openPage, contrast, overflow, names, keyboard };
