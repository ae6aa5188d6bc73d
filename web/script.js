// Plays a script on a module, line by line, as examples/README.md tells: each line is one call of the library, and has the answer
// that ./run prints for it. A record keeps of each line what the drawing shows.
'use strict';

const Script = (() => {
    const H = Header.numbers;
    const registers = ['STAT', 'CON1', 'CON2', 'BUF'];

    // toBytes(text), toText(bytes): a byte is a character here, but what is beyond one byte is written in UTF-8
    const toBytes = text => new TextEncoder().encode(text).subarray(0, Library.longest);
    const toText = bytes => Array.from(bytes, b => String.fromCharCode(b)).join('');

    // linesOf(text): its lines; the last needs no LF, and after a final LF there is no further line
    function linesOf(text) {
        const lines = toText(toBytes(text)).split('\n');
        if (lines[lines.length - 1] === '') lines.pop();
        return lines;
    }

    // asks(line): the call that a line asks for, null if it cannot be read
    function asks(line) {
        let m;
        if ((m = /^W ([0-9]) ([0-9A-F]{4})$/.exec(line))) return { call: 'W', register: +m[1], value: parseInt(m[2], 16) };
        if ((m = /^R ([0-9])$/.exec(line))) return { call: 'R', register: +m[1] };
        if ((m = /^T ([01])(?: ([01]))?$/.exec(line))) return { call: 'T', sdi: +m[1], ss: +(m[2] || 0) };
        if ((m = /^P ([01]) ([01]) ([01])$/.exec(line))) return { call: 'P', sck: +m[1], sdi: +m[2], ss: +m[3] };
        return line === 'C' ? { call: 'C' } : null;
    }

    // make(module, asked, sdi): makes the call, with this level at SDI
    function make(module, asked, sdi) {
        switch (asked.call) {
        case 'W': return module.write(asked.register, asked.value);
        case 'R': return module.read(asked.register);
        case 'T': return module.tick(sdi, asked.ss);
        case 'P': return module.pins(asked.sck, sdi, asked.ss);
        default: module.clear(); return { refusal: 0, value: 0 };
        }
    }

    const bit = (levels, mask) => (levels & mask ? '1' : '0');

    // told(asked, answer, levels): the answer as ./run prints it behind the line's number
    function told(asked, answer, levels) {
        if (answer.refusal) return `E ${answer.refusal}`;
        if (asked.call === 'W' || asked.call === 'C') return 'OK';
        if (asked.call === 'R') return Look.hex(answer.value, 4);
        if (asked.call === 'T' && answer.value === 0) return 'N';
        const parts = [levels & H.LEVELS_DRIVEN ? bit(levels, H.LEVELS_SDO) : 'Z', bit(levels, H.LEVELS_INTERRUPT)];
        if (asked.call === 'T') parts.unshift(bit(levels, H.LEVELS_SCK));
        if (levels & H.LEVELS_SS_DRIVEN) parts.push(bit(levels, H.LEVELS_SS));
        return parts.join(' ');
    }

    const isEnabled = module => (module.read(H.STAT).value & H.STAT_SPIEN) !== 0;

    // ssOf(asked, module, before): the level at SS: driven by the module, or given by a line to a module that heeds it; none while the
    // module is disabled
    function ssOf(asked, module, before) {
        const levels = module.levels(), framed = (module.read(H.CON2).value & H.CON2_FRMEN) !== 0;
        if (!isEnabled(module)) return undefined;
        if (levels & H.LEVELS_SS_DRIVEN) return levels & H.LEVELS_SS ? 1 : 0;
        if (asked && (asked.call === 'P' || (asked.call === 'T' && framed))) return asked.ss;
        return before;
    }

    // pinsOf(module, sdi, ss): the levels at all pins, of which the last two may be given from outside
    function pinsOf(module, sdi, ss) {
        const levels = module.levels();
        return {
            levels, sdi, ss, enabled: isEnabled(module), driven: (levels & H.LEVELS_DRIVEN) !== 0, ssDriven: (levels & H.LEVELS_SS_DRIVEN) !== 0,
        };
    }

    // play(module, look, text): a record for each line of the script, from power-up on; how all stood before them is `start`
    function play(module, look, text) {
        module.powerUp();
        let sdi, ss;
        const start = pinsOf(module);
        const records = linesOf(text).map((line, index) => {
            const asked = asks(line), before = module.memory;
            const answer = asked ? make(module, asked, asked.sdi) : { refusal: H.UNREADABLE_LINE, value: 0 };
            const levels = module.levels();
            const done = answer.refusal === 0;
            const stepped = done && (asked.call === 'T' || asked.call === 'P');
            const seen = stepped ? look.step(before, (m, level) => make(m, asked, level), asked.sdi) : null;
            const aborted = stepped && asked.call === 'P' && asked.ss === 1 && ss === 0 && look.begun(before, asked.sdi);
            if (stepped) sdi = asked.sdi;
            ss = ssOf(done ? asked : null, module, ss);
            return {
                number: index + 1, line, asked, stepped, seen, aborted, ...pinsOf(module, sdi, ss),
                refusal: answer.refusal, answer: told(asked || {}, answer, levels),
                digits: look.digits(before), memory: module.memory,
            };
        });
        return Object.assign(records, { start });
    }

    // part(records, from, to): some of them
    const part = (records, from, to) => Object.assign(records.slice(from, to), { start: from > 0 ? records[from - 1] : records.start });

    // output(records): what ./run prints
    const output = records => records.map(r => `${r.number} ${r.answer}\n`).join('');

    // column(record): how the drawing heads a line: a clock step has no head, a call its register and value
    function column(record) {
        const axis = String(record.number), asked = record.asked;
        if (record.stepped) return { kind: 'step', axis, idle: record.answer === 'N' };
        const head = { kind: record.refusal ? 'refused' : 'call', axis };
        if (record.refusal) head.text = Header.refusals[record.refusal];
        if (asked === null) return { ...head, label: ['?', record.answer] };
        const name = asked.register === undefined ? asked.call : registers[asked.register] || `register ${asked.register}`;
        if (record.refusal) return { ...head, label: [name, record.answer], arrow: asked.call === 'R' ? 'out' : 'in' };
        if (asked.call === 'W') return { ...head, label: [name, Look.hex(asked.value, 4)], arrow: 'in' };
        if (asked.call === 'R') return { ...head, label: [name, record.answer], arrow: 'out' };
        return { ...head, label: ['INT', 'clear'], arrow: 'in' };
    }

    // wordsOf(records): the words that went out and came in, each with the first and the last column that sampled a bit of it. The
    // last bit of a word that is lost makes no difference to the module, so what its edge samples is not seen there: it is added.
    function wordsOf(records) {
        const out = [], back = [], notes = [];
        let samples = [];
        records.forEach((r, i) => {
            if (!r.enabled || r.aborted) {
                if (samples.length) out.push({ first: samples[0], last: samples[samples.length - 1], text: '', kind: 'cut' });
                if (r.aborted) notes.push({ column: i, text: 'abort', kind: 'flag' });
                samples = [];
            }
            if (!r.seen) return;
            if (r.seen.finished && samples.length === 4 * r.digits - 1) r.seen.samples = true;
            if (r.seen.samples) samples.push(i);
            if (!r.seen.finished) return;
            const first = samples.length ? samples[0] : i, last = samples.length ? samples[samples.length - 1] : i;
            out.push({ first, last, text: r.seen.sent === null ? 'filler' : Look.hex(r.seen.sent, r.digits) });
            const came = r.seen.word === null ? '' : Look.hex(r.seen.word, r.digits);
            back.push({ first, last, text: r.seen.lost ? `${came} lost`.trim() : came, kind: r.seen.lost ? 'refused' : '' });
            samples = [];
        });
        return { out, back, notes };
    }

    // diagram(records): what the drawing draws of them
    function diagram(records) {
        const words = wordsOf(records);
        const lane = (name, level, more) => ({ name, before: level(records.start), levels: records.map(level), ...more });
        const pin = mask => r => (r.levels & mask ? 1 : 0);
        const given = name => r => (r[name] === undefined ? 'z' : r[name]);
        const samples = records.flatMap((r, i) => (r.seen && r.seen.samples ? [i] : []));
        const lanes = [
            lane('SCK', r => (r.enabled ? pin(H.LEVELS_SCK)(r) : 'z'), { edges: samples }),
            lane('SDO', r => (r.driven ? pin(H.LEVELS_SDO)(r) : 'z'), { words: words.out }),
            lane('SDI', given('sdi'), { early: () => true, samples, words: words.back }),
        ];
        if (records.some(r => r.ss !== undefined)) lanes.push(lane('SS', given('ss'), { early: i => !records[i].ssDriven }));
        lanes.push(lane('INT', pin(H.LEVELS_INTERRUPT), { kind: 'flag' }));
        return { columns: records.map(column), lanes, notes: words.notes };
    }

    return { play, part, output, diagram, toBytes };
})();
