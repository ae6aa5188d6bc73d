// Two modules on one wire: a host with its own clock and a client. Unframed ones are joined by the library's linked run, an edge a
// call; framed ones edge by edge, as docs/PORTING.md tells.
'use strict';

const Pair = (() => {
    const H = Header.numbers;

    // the bits of CON1 for the four SPI modes
    const modes = [H.CON1_CKE, 0, H.CON1_CKE | H.CON1_CKP, H.CON1_CKP];

    const framed = options => options.wire !== 'linked';

    // settings(options, role): CON1 and CON2 of the host or the client
    function settings(options, role) {
        const host = role === 'host';
        const drives = options.wire === `${role} frames`;
        const con1 = modes[host ? options.hostMode : options.clientMode] | (options.bits === 16 ? H.CON1_MODE16 : 0) |
            (host ? H.CON1_MSTEN : framed(options) ? 0 : H.CON1_SSEN);
        const con2 = (options.enhanced ? H.CON2_SPIBEN : 0) |
            (framed(options) ? H.CON2_FRMEN | H.CON2_FRMPOL | (drives ? 0 : H.CON2_SPIFSD) : 0);
        return { con1, con2 };
    }

    // run(look, options): a record for each call and each edge of a session: words are written, sent and read; how all stood before them
    // is `start`
    function run(look, options) {
        const ends = options.modules;
        const records = [];
        let ss = framed(options) ? undefined : 1;

        // now(): both ends as they are
        function now() {
            const levels = { host: ends.host.levels(), client: ends.client.levels() };
            if (framed(options)) ss = (levels.host | levels.client) & H.LEVELS_SS ? 1 : 0;
            return { levels, ss, memory: { host: ends.host.memory, client: ends.client.memory } };
        }

        const keep = (column, seen = {}) => records.push({ column, seen, ...now() });

        // call(role, name, value, answer, arrow): a call on one end, done or refused
        function call(role, name, value, answer, arrow) {
            const label = [role, name, answer.refusal ? `E ${answer.refusal}` : value];
            keep(answer.refusal ? { kind: 'refused', label, text: Header.refusals[answer.refusal] } : { kind: 'call', label, arrow });
            return answer.refusal === 0;
        }

        for (const role of ['host', 'client']) {
            const module = ends[role], { con1, con2 } = settings(options, role);
            module.powerUp();
            module.write(H.CON1, con1);
            module.write(H.CON2, con2);
            const answer = module.write(H.STAT, H.STAT_SPIEN);
            if (answer.refusal) call(role, 'STAT', '', answer, 'in');
        }
        if (!framed(options)) ends.client.pins(ends.host.levels() & H.LEVELS_SCK, 0, 1);
        const start = now();
        for (const role of ['host', 'client'])
            for (const word of options.words[role]) call(role, 'BUF', Look.hex(word, options.bits / 4), ends[role].write(H.BUF, word), 'in');

        const edge = framed(options) ? framedEdge : linkedEdge;
        const joined = framed(options) || selected();
        let rest = framed(options) ? 4 : 1; // a framed clock never stops: two clocks more are shown
        for (let edges = 1; joined && edges <= 544 && rest > 0; edges++) {
            const seen = edge();
            if (!seen) break;
            keep({ kind: 'step', axis: String(edges) }, seen);
            if (framed(options) && ends.host.wordsOwed() + ends.client.wordsOwed() === 0) rest--;
        }

        // selected(): a linked run of no edge, which selects the client; false if the ends cannot be joined
        function selected() {
            const answer = ends.host.linked(ends.client, 0);
            if (answer.refusal) return call('both', 'linked', '', answer, '');
            ss = 0;
            keep({ kind: 'step' });
            return true;
        }

        // linkedEdge(): one edge of a linked run; null if there is none
        function linkedEdge() {
            const before = { host: ends.host.memory, client: ends.client.memory };
            const sdi = ends.client.levels() & H.LEVELS_SDO ? 1 : 0;
            const answer = ends.host.linked(ends.client, 1);
            if (answer.refusal || answer.value === 0) return null;
            const levels = ends.host.levels(), sck = levels & H.LEVELS_SCK, sdo = levels & H.LEVELS_SDO ? 1 : 0;
            return {
                host: look.step(before.host, (m, level) => m.tick(level, 0), sdi),
                client: look.step(before.client, (m, level) => m.pins(sck, level, 0), sdo),
            };
        }

        // framedEdge(): one edge of two framed modules, which see SDO and SS as they stood before it
        function framedEdge() {
            const before = { host: ends.host.memory, client: ends.client.memory };
            const levels = { host: ends.host.levels(), client: ends.client.levels() };
            const pulse = (levels.host | levels.client) & H.LEVELS_SS ? 1 : 0;
            const toHost = levels.client & H.LEVELS_SDO ? 1 : 0, toClient = levels.host & H.LEVELS_SDO ? 1 : 0;
            const ticked = ends.host.tick(toHost, pulse);
            if (ticked.refusal) return call('host', 'tick', '', ticked, '') && null;
            const sck = ends.host.levels() & H.LEVELS_SCK;
            const shown = ends.client.pins(sck, toClient, pulse);
            if (shown.refusal) return call('client', 'pins', '', shown, '') && null;
            return {
                host: look.step(before.host, (m, level) => m.tick(level, pulse), toHost),
                client: look.step(before.client, (m, level) => m.pins(sck, level, pulse), toClient),
            };
        }

        for (const role of ['client', 'host']) {
            for (;;) {
                const copy = ends[role].memory, answer = ends[role].read(H.BUF);
                if (answer.refusal && answer.refusal !== H.OVERFLOWED) {
                    ends[role].memory = copy;
                    break;
                }
                if (!call(role, 'BUF', Look.hex(answer.value, options.bits / 4), answer, 'out')) break;
            }
        }
        return Object.assign(records, { start });
    }

    // wordsOf(records, role, bits): the words that one end sent, over the columns at which it sampled its own
    function wordsOf(records, role, bits) {
        const words = [], peer = role === 'host' ? 'client' : 'host';
        let samples = [];
        records.forEach((r, i) => {
            const seen = r.seen[role];
            if (!seen) return;
            if (seen.samples) samples.push(i);
            if (!seen.finished) return;
            const sent = seen.sent === null ? 'filler' : Look.hex(seen.sent, bits / 4);
            const lost = r.seen[peer].lost;
            words.push({
                first: samples[0], last: samples[samples.length - 1], text: lost ? `${sent} lost` : sent, kind: lost ? 'refused' : '',
            });
            samples = [];
        });
        return words;
    }

    // diagram(records, options): what the drawing draws of them
    function diagram(records, options) {
        const lane = (name, level, more) => ({ name, before: level(records.start), levels: records.map(level), ...more });
        const pin = (role, mask) => r => (r.levels[role] & mask ? 1 : 0);
        const sdo = role => r => (r.levels[role] & H.LEVELS_DRIVEN ? pin(role, H.LEVELS_SDO)(r) : 'z');
        const sampled = role => records.flatMap((r, i) => (r.seen[role] && r.seen[role].samples ? [i] : []));
        return {
            columns: records.map(r => r.column),
            lanes: [
                lane('SCK', pin('host', H.LEVELS_SCK), { edges: sampled('host') }),
                lane('host SDO', sdo('host'), { samples: sampled('client'), words: wordsOf(records, 'host', options.bits) }),
                lane('client SDO', sdo('client'), { samples: sampled('host'), words: wordsOf(records, 'client', options.bits) }),
                lane(framed(options) ? `${options.wire.split(' ')[0]} SS` : 'SS', r => r.ss),
                lane('host INT', pin('host', H.LEVELS_INTERRUPT), { kind: 'flag' }),
                lane('client INT', pin('client', H.LEVELS_INTERRUPT), { kind: 'flag' }),
            ],
            notes: [],
        };
    }

    // told(records): the session in a sentence
    function told(records) {
        const refused = records.find(r => r.column.kind === 'refused');
        if (refused) return `Refused: ${refused.column.label[0]}, ${refused.column.label[2]}, ${refused.column.text}.`;
        const edges = records.filter(r => r.seen.host).length;
        const read = role => records.filter(r => r.column.arrow === 'out' && r.column.label[0] === role).map(r => r.column.label[2]).join(' ') || 'nothing';
        return `${edges} edges. The client reads ${read('client')}, the host ${read('host')}.`;
    }

    return { run, diagram, told };
})();
