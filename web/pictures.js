// The pictures of the documents: docs/pictures/ has each as NAME.svg.
'use strict';

const Pictures = (() => {
    // all(library, receipt): each picture's name and text; receipt is the story's script
    function all(library, receipt) {
        const look = Look.create(library);
        const module = new Library.Module(library), peer = new Library.Module(library);
        const card = new Library.Card(library), other = new Library.Card(library);

        // pair(options): a session of a host with A5 and a client with 3C
        function pair(options, step, title) {
            const all = { bits: 8, enhanced: false, wire: 'linked', hostMode: 1, clientMode: 1,
                words: { host: [0xa5], client: [0x3c] }, modules: { host: module, client: peer }, ...options };
            return Draw.picture(Pair.diagram(Pair.run(look, all), all), step, title);
        }

        const pictures = {
            receipt: Draw.picture(Script.diagram(Script.play(module, look, receipt)), 16,
                'examples/receipt.txt: a command goes out, a receipt comes back and is read once, and every further read is refused'),
        };
        for (const mode of [0, 1, 2, 3])
            pictures[`mode-${mode}`] = pair({ hostMode: mode, clientMode: mode }, 20, `SPI mode ${mode}: a host sends A5, a client 3C`);
        pictures['framed-host'] = pair({ wire: 'host frames', enhanced: true, words: { host: [0xa5, 0xc3], client: [0x3c, 0x5a] } }, 14,
            'Framed, the clock host drives the pulses: two words without a gap');
        pictures['framed-client'] = pair({ wire: 'client frames', enhanced: true, words: { host: [0xa5, 0xc3], client: [0x3c, 0x5a] } }, 14,
            'Framed, the client drives the pulses: two words without a gap');
        const names = ['i2s', 'left-justified', 'right-justified', 'pcm-dsp'];
        Cards.protocols.forEach((protocol, i) => {
            const options = { protocol: protocol.number, bits: 16, frame: 64, left: 0xa5c3, right: 0x3c5a };
            pictures[names[i]] = Draw.picture(Cards.diagram(Cards.run(card, other, options), options), 6,
                `${protocol.name}: a frame of 64 clocks with samples of 16 bits`);
        });
        return pictures;
    }

    return { all };
})();
