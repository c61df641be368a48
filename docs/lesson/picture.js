#!/usr/bin/env node
// Looks at docs/lesson.html in a browser and writes the picture that README shows, docs/lesson.png. Beside it, in docs/lesson/picture.sha256, it
// writes which page it looked at, so that `sha256sum --check` tells a picture of an older page.
'use strict';

const { execFileSync } = require('node:child_process');
const { writeFileSync } = require('node:fs');
const path = require('node:path');
const { pathToFileURL } = require('node:url');
const { openPage } = require('./browser.js');

const ROOT = path.join(__dirname, '..', '..'), PAGE = 'docs/lesson.html', PICTURE = 'docs/lesson.png';

async function main() {
    const page = await openPage(pathToFileURL(path.join(ROOT, PAGE)).href, { width: 1000, height: 1000 });
    try {
        await page.evaluate(`async () => {
            while (!document.body.dataset.ready) await new Promise(done => setTimeout(done, 50));
            document.getElementById('cutter').scrollIntoView(); }`);
        await page.settle();
        writeFileSync(path.join(ROOT, PICTURE), await page.screenshot());
    } finally {
        await page.close();
    }
    writeFileSync(path.join(__dirname, 'picture.sha256'), execFileSync('sha256sum', [PAGE, PICTURE], { cwd: ROOT }));
}

main().catch(fault => {
    console.error(`docs/lesson/picture.js: ${fault.message}`);
    process.exit(1);
});
