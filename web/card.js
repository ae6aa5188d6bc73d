// The audio card: one frame of each protocol, with its output joined to its input, so that what it sends comes back.
'use strict';

const Cards = (() => {
    const H = Header.numbers;
    const protocols = [
        { number: H.CARD_I2S, name: 'I2S' },
        { number: H.CARD_LEFT_JUSTIFIED, name: 'Left justified' },
        { number: H.CARD_RIGHT_JUSTIFIED, name: 'Right justified' },
        { number: H.CARD_PCM_DSP, name: 'PCM/DSP' },
    ];
    const same = (one, two) => one.every((byte, i) => byte === two[i]);
    const unread = look => look >>> 12 & 15;

    // run(card, other, options): a record for each call and each edge of a frame and the clock behind it; how all stood before them is
    // `start`, and `other` is a card to try things on
    function run(card, other, { protocol, bits, frame, left, right }) {
        const records = [];
        const keep = (column, seen = {}) => records.push({ column, seen, look: card.look(), memory: card.memory });

        // call(name, value, answer, arrow): a call, done or refused
        function call(name, value, answer, arrow) {
            if (answer.refusal) keep({ kind: 'refused', label: [name, `E ${answer.refusal}`], text: Header.cardRefusals[answer.refusal] });
            else keep({ kind: 'call', label: [name, value], arrow });
        }

        card.powerUp();
        card.setProtocol(protocol);
        card.setLength(bits, frame);
        card.enable();
        const start = { look: card.look() };
        call('left', Look.hex(left, bits / 4), card.write(left), 'in');
        call('right', Look.hex(right, bits / 4), card.write(right), 'in');
        for (let i = 0; i < 2 * (frame + 1); i++) {
            const sdi = card.look() & H.CARD_SDO ? 1 : 0, before = card.memory, held = unread(card.look());
            other.memory = before;
            other.edge(1 - sdi);
            card.edge(sdi);
            const samples = !same(card.memory, other.memory), finished = unread(card.look()) > held;
            keep({ kind: 'step', axis: i % 2 ? '' : String(i / 2) }, { samples, finished, word: finished ? newest(card, other) : 0 });
        }
        for (const name of ['left', 'right']) {
            const answer = card.read();
            call(name, Look.hex(answer.value, bits / 4), answer, 'out');
        }
        return Object.assign(records, { start });
    }

    // newest(card, other): the last sample that a copy of the card hands out
    function newest(card, other) {
        other.memory = card.memory;
        for (let word = 0; ;) {
            const answer = other.read();
            if (answer.refusal) return word;
            word = answer.value;
        }
    }

    // diagram(records, options): what the drawing draws of them
    function diagram(records, { bits }) {
        const lane = (name, level, more) => ({ name, before: level(records.start), levels: records.map(level), ...more });
        const pin = mask => r => (r.look & mask ? 1 : 0);
        const words = [];
        let samples = [];
        records.forEach((r, i) => {
            if (r.seen.samples) samples.push(i);
            if (!r.seen.finished) return;
            const text = `${words.length % 2 ? 'right' : 'left'} ${Look.hex(r.seen.word, bits / 4)}`;
            words.push({ first: samples[0], last: samples[samples.length - 1], text });
            samples = [];
        });
        const sampled = records.flatMap((r, i) => (r.seen.samples ? [i] : []));
        return {
            columns: records.map(r => r.column),
            lanes: [
                lane('SCK', pin(H.CARD_SCK), { edges: sampled }),
                lane('LRCK', pin(H.CARD_LRCK)),
                lane('SDO', r => (r.look & H.CARD_DRIVEN ? pin(H.CARD_SDO)(r) : 'z'), { samples: sampled, words }),
            ],
            notes: [],
        };
    }

    // told(look): a look at the card in words
    function told(look) {
        const flag = mask => (look & mask ? 1 : 0);
        return `waiting ${look >>> 8 & 15}, unread ${unread(look)}, underrun ${flag(H.CARD_UNDERRUN)}, overflow ${flag(H.CARD_OVERFLOW)}, ` +
            `SCK ${flag(H.CARD_SCK)}, LRCK ${flag(H.CARD_LRCK)}, SDO ${flag(H.CARD_SDO)}, ` +
            `the ${look & H.CARD_RIGHT ? 'right' : 'left'} channel takes a sample next`;
    }

    return { protocols, run, diagram, told };
})();
