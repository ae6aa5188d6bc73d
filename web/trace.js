// Trace files on the page. Whether a trace is right, what it does, and what can be salvaged of it are the library's calls; here a right
// one is written out as the script that makes the same calls, so that it can be drawn.
'use strict';

const Trace = (() => {
    // isTrace(bytes): it can be a trace and no script: a trace has at most 64 sections, so its second byte is 0
    const isTrace = bytes => bytes.length >= 2 && bytes[1] === 0;

    const number = (bytes, at, size) => {
        let value = 0;
        for (let i = size - 1; i >= 0; i--) value = value * 256 + bytes[at + i];
        return value;
    };
    const bit = (argument, n) => argument >> n & 1;

    // lineOf(kind, argument, value): a record as a line of a script
    function lineOf(kind, argument, value) {
        switch (kind) {
        case 0: return `W ${argument} ${Look.hex(value, 4)}`;
        case 1: return `R ${argument}`;
        case 2: return `T ${bit(argument, 0)}${bit(argument, 2) ? ' 1' : ''}`;
        case 3: return `P ${bit(argument, 1)} ${bit(argument, 0)} ${bit(argument, 2)}`;
        default: return 'C';
        }
    }

    // written(bytes): a right trace as a script, and whether all of it has room in one
    function written(bytes) {
        const lines = [], sections = [];
        let room = Library.longest;

        // the last section first, so that those that it plays are known: what a section does, without plays that make no call
        for (let n = number(bytes, 0, 2) - 1; n >= 0; n--) {
            const start = number(bytes, 2 + 8 * n, 4), end = start + number(bytes, 6 + 8 * n, 4);
            sections[n] = [];
            for (let at = start; at < end; at += 4) {
                const kind = bytes[at], argument = bytes[at + 1], value = number(bytes, at + 2, 2);
                if (kind !== 5) sections[n].push({ line: lineOf(kind, argument, value) });
                else if (value > 0 && sections[argument].length > 0) sections[n].push({ plays: argument, times: value });
            }
        }

        // play(n): writes a section out; false if there is no room left
        function play(n) {
            for (const { line, plays, times } of sections[n]) {
                if (line === undefined) {
                    for (let i = 0; i < times; i++) if (!play(plays)) return false;
                    continue;
                }
                room -= line.length + 1;
                if (room < 0) return false;
                lines.push(line);
            }
            return true;
        }

        const whole = play(0);
        return { text: lines.map(line => `${line}\n`).join(''), whole };
    }

    // told(files, module, bytes): what ./run play prints of it, as one text; the module is then what it leaves
    function told(files, module, bytes) {
        const H = Header.numbers;
        const answer = files.play(module, bytes);
        if (answer.refusal) return { refusal: answer.refusal, text: `E ${answer.refusal}: ${Header.refusals[answer.refusal]}` };
        const register = name => `${name} ${Look.hex(module.read(H[name]).value, 4)}`;
        const interrupt = `interrupt ${module.levels() & H.LEVELS_INTERRUPT ? 1 : 0}`;
        return {
            refusal: 0,
            text: [`OK ${answer.value}`, register('STAT'), register('CON1'), register('CON2'), interrupt].join(', '),
        };
    }

    return { isTrace, written, told };
})();
