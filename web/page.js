// The controls of the page: three tabs over one library.
'use strict';

(() => {
    const by = id => document.getElementById(id);
    const style = document.createElement('style');
    style.textContent = `${Draw.style()}:root{--font:${Draw.font}}`;
    document.head.append(style);

    // the page says at first that this browser cannot run it; only one that can takes that back
    if (!Library.knows64()) return;
    const library = Library.load(Library.fromBase64(Shipped.wasm));
    by('sorry').hidden = true;
    by('main').hidden = false;
    by('version').textContent = `, version ${Library.version(library)}`;

    const look = Look.create(library), files = new Library.Files(library);

    // say(element, text, wrong): a line for the reader
    function say(element, text, wrong = false) {
        element.textContent = text;
        element.classList.toggle('wrong', wrong);
    }

    // ---- tabs

    function startTabs() {
        const tabs = [...document.querySelectorAll('[role=tab]')];
        function show(tab) {
            for (const t of tabs) {
                const on = t === tab;
                t.setAttribute('aria-selected', on);
                t.tabIndex = on ? 0 : -1;
                by(t.getAttribute('aria-controls')).hidden = !on;
            }
        }
        tabs.forEach((tab, i) => {
            tab.addEventListener('click', () => show(tab));
            tab.addEventListener('keydown', event => {
                const to = { ArrowRight: i + 1, ArrowLeft: i - 1, Home: 0, End: tabs.length - 1 }[event.key];
                if (to === undefined) return;
                const next = tabs[(to + tabs.length) % tabs.length];
                show(next);
                next.focus();
                event.preventDefault();
            });
        });
    }

    // ---- a script

    function startScript() {
        const module = new Library.Module(library), played = new Library.Module(library);
        const powered = module.memory;
        const text = by('text'), answers = by('answers'), said = by('said'), editor = by('editor');
        const drawnAtMost = 600; // columns; a longer script is drawn around the chosen line
        let records = [], chosen = -1, from = 0, running = 0;

        const view = new View(by('view'), 'Timing diagram', {
            onPoint: column => inspect(column < 0 ? chosen : from + column),
            onChoose: column => { stop(); choose(from + column); },
            onStep: by => { stop(); choose(chosen + by); },
        });

        // inWords(line): that line and its answer, -1 being power-up
        function inWords(line) {
            const r = records[line];
            return r ? `After line ${r.number}: ${r.line} → ${r.answer}${r.refusal ? `, ${Header.refusals[r.refusal]}` : ''}` : 'At power-up';
        }

        // inspect(line): the module after that line
        function inspect(line) {
            const r = records[line];
            by('inspector').innerHTML = Inspector.module(look.all(r ? r.memory : powered), inWords(line));
        }

        // choose(line): the script is played up to that line
        function choose(line) {
            chosen = Math.min(records.length - 1, Math.max(-1, line));
            if (chosen < from && from > 0 || chosen >= from + drawnAtMost) draw();
            view.choose(chosen - from);
            mark();
            inspect(chosen);
            say(by('told'), inWords(chosen));
        }

        // mark(): a bar lies behind the chosen line, and the answers behind it are dimmed
        function mark() {
            by('later').style.top = `${20 * (chosen + 1)}px`;
            const bar = by('current'), top = 8 + 20 * chosen;
            bar.style.display = chosen < 0 ? 'none' : 'block';
            bar.style.top = `${top}px`;
            const hidden = top < editor.scrollTop || top + 28 > editor.scrollTop + editor.clientHeight;
            if (chosen >= 0 && hidden) editor.scrollTop = top - editor.clientHeight / 2;
        }

        // draw(): draws the lines around the chosen one
        function draw() {
            from = records.length <= drawnAtMost ? 0 : Math.max(0, Math.min(chosen - drawnAtMost / 2, records.length - drawnAtMost));
            view.show(Script.diagram(Script.part(records, from, from + drawnAtMost)));
        }

        // play(): plays the text anew, to its end
        function play() {
            records = Script.play(module, look, text.value);
            answers.innerHTML = records.map(r => (r.refusal ? `<span class="no">${r.number} ${r.answer}</span>\n` : `${r.number} ${r.answer}\n`)).join('');
            text.style.height = `${20 * (text.value.split('\n').length + 1)}px`;
            chosen = records.length - 1;
            draw();
            choose(chosen);
        }

        function stop() {
            clearInterval(running);
            running = 0;
            by('run').textContent = 'Run';
        }

        // run(): the lines from the chosen one on, or from the first, as a film of a few seconds
        function run() {
            if (running) return stop();
            if (chosen === records.length - 1) choose(-1);
            if (matchMedia('(prefers-reduced-motion: reduce)').matches) return choose(records.length - 1);
            const stride = Math.max(1, Math.ceil(records.length / 150));
            by('run').textContent = 'Stop';
            running = setInterval(() => {
                choose(chosen + stride);
                if (chosen === records.length - 1) stop();
            }, 40);
        }

        // put(value): another script
        function put(value) {
            stop();
            text.value = value;
            play();
            view.waves.scrollLeft = editor.scrollTop = 0;
        }

        // open(name, bytes): a script, or a trace, which is played and written out as one
        function open(name, bytes) {
            if (!name.endsWith('.trace') && !Trace.isTrace(bytes)) {
                put(new TextDecoder('utf-8', { ignoreBOM: true }).decode(bytes));
                const returns = bytes.includes(13) ? 'Its lines end in CR and LF. The CRs are left out here; ./run refuses such lines with 9.' : '';
                return say(said, bytes.length > Library.longest ? 'It is longer than 65,535 bytes, and what comes after them is not played.' : returns);
            }
            const told = Trace.told(files, played, bytes);
            if (told.refusal) return say(said, `${name}: ${told.text}. If it was cut, it may be salvaged.`, true);
            const script = Trace.written(bytes);
            put(script.text);
            say(said, `${name}: ${told.text}.${script.whole ? '' : ' Its calls are more than a script holds; the first of them are shown.'}`);
        }

        // salvage(name, bytes): what is left of a cut trace is opened, and handed out as a file
        function salvage(name, bytes) {
            const told = files.salvage(bytes);
            if (told.refusal) return say(said, `${name}: E ${told.refusal}: ${Header.refusals[told.refusal]}.`, true);
            const news = `sections cut ${told.cut}, bytes lost ${told.lost}`;
            open(name, told.trace);
            say(said, `${name}: ${news}. ${said.textContent}`);
            download('salvaged.trace', told.trace);
        }

        function save() {
            const told = files.save(Script.toBytes(text.value));
            if (told.refusal) return say(said, `E ${told.refusal}: ${Header.refusals[told.refusal]}.`, true);
            say(said, `Saved: ${told.value} bytes, ${(told.value - 10) / 4} records.`);
            download('script.trace', told.trace);
        }

        function download(name, bytes) {
            const link = document.createElement('a');
            link.href = URL.createObjectURL(new Blob([bytes], { type: 'application/octet-stream' }));
            link.download = name;
            link.click();
            setTimeout(() => URL.revokeObjectURL(link.href), 1000);
        }

        // ask(use): lets the reader choose a file, for open or salvage
        function ask(use) {
            const input = by('file');
            input.value = '';
            input.onchange = async () => {
                const file = input.files[0];
                if (file) use(file.name, new Uint8Array(await file.slice(0, Library.longest + 1).arrayBuffer()));
            };
            input.click();
        }

        const select = by('example');
        for (const [group, kind] of [['Scripts', Shipped.scripts], ['Traces', Shipped.traces]]) {
            const part = document.createElement('optgroup');
            part.label = group;
            for (const name of Object.keys(kind)) part.append(new Option(name, name));
            select.append(part);
        }
        const shipped = name => Library.fromBase64(Shipped.scripts[name] || Shipped.traces[name]);
        select.addEventListener('change', () => open(select.value, shipped(select.value)));

        let waiting = 0;
        text.addEventListener('input', () => {
            stop();
            clearTimeout(waiting);
            if (text.value.split('\n').length <= 5001) play();
            else waiting = setTimeout(play, 400);
        });
        const caret = () => {
            const line = text.value.slice(0, text.selectionStart).split('\n').length - 1;
            if (line !== chosen) choose(line);
        };
        text.addEventListener('click', caret);
        text.addEventListener('keyup', event => { if (/^(Arrow|Home|End|Page)/.test(event.key)) caret(); });
        answers.addEventListener('click', event => choose(Math.floor((event.clientY - answers.getBoundingClientRect().top) / 20)));

        by('open').addEventListener('click', () => ask(open));
        by('salvage').addEventListener('click', () => ask(salvage));
        by('save').addEventListener('click', save);
        by('start').addEventListener('click', () => { stop(); choose(-1); view.waves.scrollLeft = 0; });
        by('back').addEventListener('click', () => { stop(); choose(chosen - 1); });
        by('step').addEventListener('click', () => { stop(); choose(chosen + 1); });
        by('run').addEventListener('click', run);
        by('narrower').addEventListener('click', () => view.zoom(0.8));
        by('wider').addEventListener('click', () => view.zoom(1.25));

        open('receipt.txt', shipped('receipt.txt'));
    }

    // ---- a linked pair

    // hexWords(text, bits): numbers in hexadecimal, null if one is none or too long
    function hexWords(text, bits) {
        const words = text.trim().split(/[\s,]+/).filter(w => w);
        return words.every(w => /^[0-9A-Fa-f]+$/.test(w) && w.length <= bits / 4) ? words.map(w => parseInt(w, 16)) : null;
    }

    function startPair() {
        const form = by('pair-form'), said = by('pair-said');
        const modules = { host: new Library.Module(library), client: new Library.Module(library) };
        let records = [];

        const view = new View(by('pair-view'), 'Two modules on one wire', {
            onPoint: column => inspect(column < 0 ? view.chosen : column),
            onChoose: choose,
        });

        function choose(column) {
            view.choose(column);
            inspect(column);
        }

        // inspect(column): both modules after that column
        function inspect(column) {
            const r = records[Math.max(0, column)];
            const part = role => `<div>${Inspector.module(look.all(r.memory[role]), role)}</div>`;
            if (r) by('pair-inspector').innerHTML = part('host') + part('client');
        }

        // play(): runs the pair anew
        function play() {
            const f = form.elements, bits = +f.bits.value;
            const words = { host: hexWords(f.hostWords.value, bits), client: hexWords(f.clientWords.value, bits) };
            if (!words.host || !words.client) return say(said, `Words are hexadecimal numbers of at most ${bits / 4} digits, as in A5 C3.`, true);
            const options = {
                wire: f.wire.value, hostMode: +f.hostMode.value, clientMode: +f.clientMode.value, bits, enhanced: f.enhanced.checked, words, modules,
            };
            records = Pair.run(look, options);
            view.show(Pair.diagram(records, options));
            say(said, Pair.told(records));
            choose(records.length - 1);
            view.waves.scrollLeft = 0;
        }

        form.addEventListener('input', play);
        form.addEventListener('submit', event => event.preventDefault());
        by('pair-narrower').addEventListener('click', () => view.zoom(0.8));
        by('pair-wider').addEventListener('click', () => view.zoom(1.25));
        play();
    }

    // ---- the audio card

    function startCard() {
        const form = by('card-form'), said = by('card-said');
        const card = new Library.Card(library), other = new Library.Card(library);
        const played = [], looks = [];
        const views = Cards.protocols.map((protocol, i) => {
            const heading = document.createElement('h2'), place = document.createElement('div'), looked = document.createElement('p');
            heading.textContent = protocol.name;
            looked.className = 'said look';
            by('cards').append(heading, place, looked);
            looks.push(looked);
            const view = new View(place, protocol.name, {
                onPoint: column => inspect(i, column < 0 ? view.chosen : column),
                onChoose: column => { view.choose(column); inspect(i, column); },
            });
            view.step = 8;
            return view;
        });

        // inspect(i, column): what the card of that protocol tells after that column
        function inspect(i, column) {
            const r = played[i] && played[i][Math.max(0, column)];
            if (r) say(looks[i], Cards.told(r.look));
        }

        // play(): a frame of each protocol
        function play() {
            const f = form.elements, [bits, frame] = f.shape.value.split(' ').map(Number);
            const samples = [f.left.value, f.right.value].map(text => hexWords(text, bits));
            if (samples.some(s => !s || s.length !== 1))
                return say(said, `A sample is a hexadecimal number of at most ${bits / 4} digits.`, true);
            say(said, '');
            Cards.protocols.forEach((protocol, i) => {
                const options = { protocol: protocol.number, bits, frame, left: samples[0][0], right: samples[1][0] };
                played[i] = Cards.run(card, other, options);
                const diagram = Cards.diagram(played[i], options);
                views[i].show(diagram);
                views[i].choose(diagram.columns.length - 1, false);
                inspect(i, played[i].length - 1);
            });
        }

        form.addEventListener('input', play);
        form.addEventListener('submit', event => event.preventDefault());
        by('card-narrower').addEventListener('click', () => views.forEach(view => view.zoom(0.8)));
        by('card-wider').addEventListener('click', () => views.forEach(view => view.zoom(1.25)));
        play();
    }

    startTabs();
    startScript();
    startPair();
    startCard();
})();
