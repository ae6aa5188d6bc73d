// Uses the page as a reader would, in frames of three widths, and writes a line for each check into the document: 'ok: WHAT' or
// 'FAILED: WHAT: WHY'. tests/page hands it `Given`: the page, what ./run prints of each script, and the header's texts of refusals.
'use strict';

const lines = [];
const decoded = text => new TextDecoder().decode(Uint8Array.from(atob(text), c => c.charCodeAt(0)));

// check(what, wrong): a line; wrong says what is wrong, and is empty if nothing is
function check(what, wrong) {
    lines.push(wrong ? `FAILED: ${what}: ${String(wrong).slice(0, 300)}` : `ok: ${what}`);
}

// differs(seen, wanted): empty if they are the same
const differs = (seen, wanted) => (seen === wanted ? '' : `${JSON.stringify(seen)} and not ${JSON.stringify(wanted)}`);

// frame(width, before): the page in a frame of that width, with a script of ours before its own
function frame(width, before = '') {
    const made = document.createElement('iframe');
    made.style.cssText = `width:${width}px;height:900px;border:0`;
    made.srcdoc = decoded(Given.page).replace('<head>', `<head>${before}`);
    const loaded = new Promise(done => { made.onload = () => done({ width, window: made.contentWindow, document: made.contentDocument }); });
    document.body.append(made);
    return loaded;
}

// later(): lets what waits in the page go on
async function later() {
    for (let i = 0; i < 20; i++) await null;
}

// ---- labels

const shown = element => element.getClientRects().length > 0;

// overlap(elements): the first two whose boxes meet, empty if none do
function overlap(elements) {
    const boxes = elements.map(e => ({ text: e.textContent.trim(), ...e.getBoundingClientRect().toJSON() })).filter(b => b.width > 0);
    boxes.sort((a, b) => a.left - b.left);
    for (let i = 0; i < boxes.length; i++) {
        const a = boxes[i];
        for (let k = i + 1; k < boxes.length && boxes[k].left < a.right - 0.5; k++) {
            const b = boxes[k];
            if (b.top < a.bottom - 0.5 && a.top < b.bottom - 0.5) return `'${a.text}' meets '${b.text}'`;
        }
    }
    return '';
}

// labels(page): no two labels of a drawing meet, none of the rest of the page, and nothing makes the page wider than it is
function labels(page) {
    const { document } = page;
    for (const svg of document.querySelectorAll('.view svg')) {
        if (!shown(svg)) continue;
        const found = overlap([...svg.querySelectorAll('text')]);
        if (found) return found;
        const box = svg.getBoundingClientRect();
        for (const text of svg.querySelectorAll('text')) {
            const b = text.getBoundingClientRect();
            const inside = b.left >= box.left - 1 && b.right <= box.right + 1 && b.top >= box.top - 1 && b.bottom <= box.bottom + 1;
            if (!inside) return `'${text.textContent}' leaves the drawing`;
        }
    }
    const rest = [...document.querySelectorAll('h1,h2,h3,header p,.said,.legend,button,select,input,dt,.chip,.word,.bits,.view')].filter(shown);
    const wide = document.documentElement.scrollWidth;
    return overlap(rest) || (wide > page.width ? `the page is ${wide} pixels wide` : '');
}

// ---- waveforms

// vcd(text): the values of a VCD file at each of its times but the last, by their letters
function vcd(text) {
    const now = {}, times = [];
    for (const line of text.split('\n')) {
        const value = /^b?([01xz]+) ?([a-zA-Z])$/.exec(line);
        if (value) now[value[2]] = value[1];
        else if (line[0] === '#') times.push({ ...now });
    }
    return times.slice(1);
}

// inside(page): the page's own files
function inside(page) {
    const script = page.document.createElement('script');
    script.textContent = 'window.parts = { Library, Look, Script, Shipped };';
    page.document.body.append(script);
    return page.window.parts;
}

// levelsDiffer(lanes, times): the lanes' levels are those of the waveform; an SS that nobody has told since the module was enabled is open,
// where the module holds it for high
function levelsDiffer(lanes, times) {
    for (const { name, before, levels } of lanes) {
        const letter = { SCK: 'c', SDO: 'o', SDI: 'i', SS: 's', INT: 'f' }[name];
        let untold = true;
        for (const [i, level] of [before, ...levels].entries()) {
            const held = times[i][letter].replace('x', 'z');
            untold = name === 'SS' && (held === 'z' || (untold && level === 'z'));
            if (String(level) !== held && !(untold && held === '1')) return `${name} after line ${i} is ${level} and not ${held}`;
        }
    }
    return '';
}

// lookDiffers(look, now): the words waiting and unread and the shift register are those of the waveform. The bits of a word that will
// be lost cannot be told.
function lookDiffers(look, now) {
    const number = text => (text.includes('z') ? null : parseInt(text, 2));
    const [waiting, unread, out, came] = ['w', 'u', 'O', 'I'].map(letter => number(now[letter]));
    const kept = look.waiting.length - waiting; // the word in the shift register, where it does not wait there too
    if (!look.unreadable && look.unread.length !== unread) return `${look.unread.length} words unread and not ${unread}`;
    if (kept !== 0 && !(kept === 1 && out !== null)) return `${look.waiting.length} words to send and not ${waiting}`;
    if (look.next !== out && !(look.next === null && out === 0)) return `${look.next} goes out and not ${out}`;
    if (look.came !== null && came !== null && look.came >> look.left !== came) return `${look.came} comes in and not ${came}`;
    return came === null && look.left !== look.width ? 'bits came in where no word is under way' : '';
}

// waves(page): what is drawn and told of each line is what the second model's waveform has
function waves(page) {
    const { Library, Look, Script, Shipped } = inside(page);
    const library = Library.load(Library.fromBase64(Shipped.wasm)), look = Look.create(library), module = new Library.Module(library);
    let levels = '', looks = '', lines = 0, count = 0;
    for (const [name, packed] of Object.entries(Given.waves)) {
        const times = vcd(decoded(packed)), of = wrong => wrong && `${name}: ${wrong}`;
        const records = Script.play(module, look, decoded(Shipped.scripts[name] || Given.random));
        levels = levels || of(records.length + 1 === times.length ? levelsDiffer(Script.diagram(records).lanes, times) : 'lines');
        lines += records.length;
        for (let i = 0; i < records.length; i += records.length > 1000 ? 5 : 1, count++)
            looks = looks || of(lookDiffers(look.all(records[i].memory), times[i + 1]));
    }
    check(`the levels drawn of ${lines} lines are those of the second model's waveforms`, levels);
    check(`the words waiting and unread and the shift register told of ${count} lines are so too`, looks);
}

// ---- what is tried

function choose(page, name) {
    const select = page.document.getElementById('example');
    select.value = name;
    select.dispatchEvent(new page.window.Event('change'));
}

const answers = page => page.document.getElementById('answers').textContent;
const texts = (page, selector) => [...page.document.querySelectorAll(selector)].map(e => e.textContent);
const click = (page, id) => page.document.getElementById(id).click();

// refused(page, output): each refusal of the output stands in the drawing with its number and its text
function refused(page, output) {
    const numbers = [...output.matchAll(/ E (\d+)$/gm)].map(m => m[1]);
    const heads = texts(page, '#view text.refused').filter(t => /^E /.test(t)).map(t => t.slice(2));
    if (heads.join() !== numbers.join()) return differs(heads.join(), numbers.join());
    const said = texts(page, '#view text.why').join(' ');
    return numbers.map(n => Given.refusals[n]).find(text => !said.includes(text)) || '';
}

// scripts(page): each shipped script
function scripts(page) {
    let lines = '', shown = '', meets = '', count = 0;
    for (const [name, packed] of Object.entries(Given.outputs)) {
        const output = decoded(packed), of = wrong => wrong && `${name}: ${wrong}`;
        choose(page, name);
        count += output.split('\n').length - 1;
        lines = lines || of(differs(answers(page), output));
        shown = shown || of(refused(page, output));
        meets = meets || of(labels(page));
    }
    check(`${page.width} pixels: the ${count} lines of the shipped scripts are as ./run prints them`, lines);
    check(`${page.width} pixels: each refusal is shown with its number and its text`, shown);
    check(`${page.width} pixels: no two labels meet in any script`, meets);
}

// type(page, script): as if it were typed
function type(page, script) {
    const text = page.document.getElementById('text');
    text.value = script;
    text.dispatchEvent(new page.window.Event('input'));
}

// odd(page): random lines, lines that nearly can be read, and a script of many lines
function odd(page) {
    type(page, decoded(Given.random));
    const output = decoded(Given.randomOutput);
    check(`${output.split('\n').length - 1} random lines are as ./run prints them`, differs(answers(page), output));
    check('no two labels meet in what is drawn of them', labels(page));
    type(page, decoded(Given.odd));
    check('lines that nearly can be read are refused as ./run refuses them', differs(answers(page), decoded(Given.oddOutput)));
    check('no two labels meet there', labels(page));
    type(page, '');
    check('a script without a line is power-up', differs(page.document.querySelector('#inspector h3').textContent + answers(page), 'At power-up'));
    type(page, `W 1 0020\nW 0 8000\n${'T 1\n'.repeat(3000)}R 0\n`);
    const heading = () => page.document.querySelector('#inspector h3').textContent;
    const waves = page.document.querySelector('#view .waves');
    const press = key => waves.dispatchEvent(new page.window.KeyboardEvent('keydown', { key, bubbles: true }));
    check('a script of 3,003 lines is played', differs(heading(), 'After line 3003: R 0 → 8000'));
    check('it is drawn around the chosen line', texts(page, '#view text.small').includes('3003') ? '' : 'there is no line 3003');
    press('Home');
    for (let i = 0; i < 650; i++) press('ArrowRight');
    check('keys go beyond what is drawn', differs(heading(), 'After line 650: T 1 → N'));
    press('End');
    check('and to the end', differs(heading(), 'After line 3003: R 0 → 8000'));
}

// words(page): what stands over the bits of SDO and SDI
function words(page) {
    const wanted = {
        'receipt.txt': 'C3 5A', 'client.txt': 'A5 3C', 'framed.txt': 'C3 5A A5 filler 3C A5 5A C3',
        'overflow.txt': '03 00 00 00 00 00 00 00 00 03 03 03 00 00 52 45 43 45 49 50 54 20 37 lost lost 52 52 45 lost 43',
    };
    for (const [name, list] of Object.entries(wanted)) {
        choose(page, name);
        const over = texts(page, '#view text:not([class]), #view text.refused');
        const seen = over.filter(t => /^([0-9A-F]{2}|filler|([0-9A-F]{2} )?lost)$/.test(t)).join(' ');
        check(`${name}: words stand over their bits`, differs(seen, list));
    }
}

// zooms(page): labels at other zooms
function zooms(page) {
    choose(page, 'framed.txt');
    let wrong = '';
    for (const button of ['narrower', 'narrower', 'narrower', 'narrower', 'narrower', 'narrower', 'narrower']) {
        click(page, button);
        wrong = wrong || labels(page);
    }
    for (let i = 0; i < 12; i++) {
        click(page, 'wider');
        wrong = wrong || labels(page);
    }
    check(`${page.width} pixels: no two labels meet at any zoom`, wrong);
}

// steps(page): by buttons, by the keyboard and by the pointer
function steps(page) {
    const heading = () => page.document.querySelector('#inspector h3').textContent;
    choose(page, 'receipt.txt');
    click(page, 'start');
    check('the start is power-up', differs(heading(), 'At power-up'));
    click(page, 'step');
    click(page, 'step');
    check('two steps are two lines', differs(heading(), 'After line 2: W 2 0001 → OK'));
    const waves = page.document.querySelector('#view .waves');
    for (const key of ['ArrowRight', 'ArrowRight', 'ArrowLeft', 'ArrowRight'])
        waves.dispatchEvent(new page.window.KeyboardEvent('keydown', { key, bubbles: true }));
    check('arrow keys step', differs(heading(), 'After line 4: R 3 → E 6, nothing is unread'));
    waves.dispatchEvent(new page.window.KeyboardEvent('keydown', { key: 'End', bubbles: true }));
    waves.scrollLeft = 0;
    const svg = page.document.querySelector('#view .drawn'), box = svg.getBoundingClientRect();
    const column = [...page.document.querySelectorAll('#view rect.band')][2].getBoundingClientRect();
    svg.dispatchEvent(new page.window.PointerEvent('pointermove', { clientX: column.left + 4, clientY: box.top + 20, bubbles: true }));
    check('the pointer shows a line', differs(heading(), 'After line 3: W 0 8000 → OK'));
    const chips = texts(page, '#inspector .chip.on').join();
    check('registers are told by the names of their bits', differs(chips, 'SPIEN 1,SRMPT 1,SRXMPT 1,MSTEN 1,SPIBEN 1'));
}

// looks(page): buffers and shift register in the middle of a word
function looks(page) {
    const dd = n => page.document.querySelectorAll('#inspector dd')[n].textContent;
    type(page, 'W 1 0020\nW 2 0001\nW 0 8000\nW 3 00C3\nW 3 005A\nW 3 0011\nT 1\nT 1\nT 0\nT 0\nT 1\nT 1\n');
    check('words to be sent are listed, with the edges owed', differs(dd(3), 'C35A1142 edges'));
    check('nothing is unread', differs(dd(4), 'none'));
    check('the shift register has what is to go out and what has come in', differs(dd(5), 'out ···00011in 101·····'));
    choose(page, 'framed.txt');
    click(page, 'start');
    for (let i = 0; i < 18; i++) click(page, 'step');
    check('so it has in a framed module', differs(dd(5), 'out ····0011in 0011····'));
}

// traces(page): opened, saved and salvaged
async function traces(page) {
    const said = () => page.document.getElementById('said').textContent;
    const blobs = [];
    page.window.Blob = function (parts) { blobs.push(parts[0]); return new Blob(parts); };
    const packed = bytes => btoa(String.fromCharCode(...bytes));
    choose(page, 'receipt.trace');
    check('a trace is played', differs(said(), 'receipt.trace: OK 31, STAT 80A0, CON1 0020, CON2 0001, interrupt 1.'));
    check('a trace is written out as lines', differs(answers(page).split('\n').slice(-4).join(), '21 0 1 0,22 005A,23 E 6,'));
    choose(page, 'refusals.txt');
    click(page, 'save');
    check('a script is saved as a trace', differs(packed(blobs.pop()), Given.saved));

    const input = page.document.getElementById('file');
    input.click = () => {};
    // opens(button, name, bytes): as if the reader had chosen a file
    async function opens(button, name, bytes) {
        click(page, button);
        const file = { name, slice: () => ({ arrayBuffer: async () => bytes.slice().buffer }) };
        Object.defineProperty(input, 'files', { configurable: true, value: [file] });
        input.onchange();
        await later();
    }
    await opens('open', 'some.txt', new TextEncoder().encode('W 1 0020\r\nR 1\r\n'));
    check('a script with CR and LF is opened, and that is said', differs(answers(page), '1 OK\n2 0020\n') || (/CR and LF/.test(said()) ? '' : said()));
    const cut = Uint8Array.from(atob(Given.cut), c => c.charCodeAt(0));
    await opens('open', 'some.trace', cut);
    check('a cut trace is refused',
        differs(said(), "some.trace: E 17: the trace's table of contents or length is wrong. If it was cut, it may be salvaged."));
    await opens('salvage', 'some.trace', cut);
    check('a cut trace is salvaged',
        differs(said(), 'some.trace: sections cut 1, bytes lost 4. some.trace: OK 27, STAT 8020, CON1 0020, CON2 0001, interrupt 0.'));
    check('the salvaged trace is handed out', differs(packed(blobs.pop()), Given.salvaged));
}

// pairs(page): words cross in every mode and both framed pairings, and ends that differ are refused
function pairs(page) {
    const form = page.document.getElementById('pair-form').elements;
    const set = values => {
        for (const [name, value] of Object.entries(values)) form[name].value = value;
        form.wire.dispatchEvent(new page.window.Event('input', { bubbles: true }));
    };
    click(page, 'tab-pair');
    const told = () => texts(page, '#pair-view text.call').join(' ');
    let words = '', meets = '';
    for (const bits of [8, 16])
        for (const wire of ['linked', 'host frames', 'client frames'])
            for (const mode of [0, 1, 2, 3]) {
                const pad = word => word.padStart(bits / 4, '0');
                set({ bits, wire, hostMode: mode, clientMode: mode, hostWords: 'A5 C3', clientWords: '3C 5A' });
                const [a, b, c, d] = ['A5', 'C3', '3C', '5A'].map(pad);
                words = words || differs(told(), `${a} ${b} ${c} ${d} ${a} ${b} ${c} ${d}`);
                const spans = texts(page, '#pair-view text:not([class])').filter(t => /^[0-9A-F]+$/.test(t)).join(' ');
                words = words || differs(spans, `${a} ${b} ${c} ${d}`);
                meets = meets || labels(page);
            }
    check(`${page.width} pixels: a pair's words arrive, in every mode, width and pairing`, words);
    set({ bits: 8, wire: 'linked', hostMode: 1, clientMode: 3 });
    check(`${page.width} pixels: ends of different modes are refused`, differs(texts(page, '#pair-view text.refused').join(), 'E 10'));
    check(`${page.width} pixels: no two labels of a pair meet`, meets || labels(page));
}

// cards(page): what each protocol sends comes back
function cards(page) {
    const form = page.document.getElementById('card-form').elements;
    click(page, 'tab-card');
    let words = '', meets = '';
    for (const shape of ['16 32', '16 64', '24 64', '32 64']) {
        const digits = +shape.slice(0, 2) / 4, left = 'A5C30F11'.slice(0, digits), right = '3C5A1234'.slice(0, digits);
        Object.assign(form.shape, { value: shape });
        Object.assign(form.left, { value: left });
        Object.assign(form.right, { value: right });
        form.shape.dispatchEvent(new page.window.Event('input', { bubbles: true }));
        for (const view of page.document.querySelectorAll('#cards .view')) {
            const of = selector => [...view.querySelectorAll(selector)].map(e => e.textContent).join(' ');
            words = words || differs(of('text.call'), `${left} ${right} ${left} ${right}`);
        }
        meets = meets || labels(page);
    }
    check(`${page.width} pixels: each protocol's samples come back, in every length`, words);
    check(`${page.width} pixels: no two labels of a card meet`, meets);
    click(page, 'tab-script');
}

async function all() {
    const pages = await Promise.all([360, 800, 1400].map(width => frame(width)));
    const without = await frame(800, '<script>WebAssembly.validate = () => false;</' + 'script>');
    for (const page of pages) {
        scripts(page);
        zooms(page);
        pairs(page);
        cards(page);
    }
    waves(pages[2]);
    words(pages[2]);
    steps(pages[2]);
    looks(pages[2]);
    odd(pages[2]);
    await traces(pages[2]);
    const sorry = without.document.getElementById('sorry');
    const told = shown(sorry) && !shown(without.document.getElementById('main')) && /WebAssembly/.test(sorry.textContent);
    check('a browser without wasm64 gets a sentence', told ? '' : 'there is none');
}

all().catch(error => check('the checks end', error.stack || error)).then(() => {
    document.getElementById('lines').textContent = `\n${lines.join('\n')}\ndone\n`;
});
