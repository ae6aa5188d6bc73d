// The library in the page: thurafeqa.wasm, as ./library builds it, and its calls. Numbers and texts are the header's: ./page
// takes them from include/ and hands them over as Header. A module or a card is memory of the library that only the library
// understands; what is kept of it here is a copy of its bytes.
'use strict';

const Library = (() => {
    // the smallest module that has memory of 64-bit addresses
    const smallest = new Uint8Array([0, 0x61, 0x73, 0x6d, 1, 0, 0, 0, 5, 3, 1, 4, 1]);

    // knows64(): whether this browser runs WebAssembly with memory of 64-bit addresses
    const knows64 = () => typeof WebAssembly === 'object' && WebAssembly.validate(smallest);

    // fromBase64(text): the bytes that the text stands for
    const fromBase64 = text => Uint8Array.from(atob(text), c => c.charCodeAt(0));

    // answered(number): an answer of the library taken apart
    const answered = number => ({ refusal: number >>> 16, value: number & 0xffff });

    // answered64(number): an answer of 64 bits taken apart, as the card gives it
    const answered64 = number => ({ refusal: Number(BigInt.asUintN(64, number) >> 32n), value: Number(number & 0xffffffffn) });

    // load(bytes): the library of these bytes, started
    function load(bytes) {
        const calls = new WebAssembly.Instance(new WebAssembly.Module(bytes)).exports;
        const end = grow(calls.memory, 4);
        let free = Number(calls.__heap_base.value);

        // take(size): the address of so many bytes that nobody else has
        function take(size) {
            const at = free + 15 & ~15;
            free = at + size;
            if (free > end) throw new Error('the page has no memory left');
            return at;
        }

        // view(at, size): the bytes that lie there
        const view = (at, size) => new Uint8Array(calls.memory.buffer, at, size);

        return { calls, take, view };
    }

    // version(library): what the library says of itself
    function version({ calls }) {
        const number = calls.thurafeqa_version();
        return [number >> 16, number >> 8 & 255, number & 255].join('.');
    }

    // grow(memory, pages): gives the memory more pages, and tells its size; an older engine takes a plain number
    function grow(memory, pages) {
        try {
            memory.grow(BigInt(pages));
        } catch (error) {
            memory.grow(pages);
        }
        return memory.buffer.byteLength;
    }

    // Held: something of a fixed size in the library's memory
    class Held {
        constructor(library, size) {
            this.library = library;
            this.size = size;
            this.place = library.take(size);
            this.at = BigInt(this.place);
            this.calls = library.calls;
        }

        // its bytes, as a copy
        get memory() {
            return this.library.view(this.place, this.size).slice();
        }

        // puts a copy of other bytes there
        set memory(bytes) {
            this.library.view(this.place, this.size).set(bytes);
        }
    }

    // Module: one SPI module, with the calls of include/thurafeqa.h under their short names
    class Module extends Held {
        constructor(library) {
            super(library, 192);
            this.powerUp();
        }

        powerUp() { this.calls.thurafeqa_power_up(this.at); }
        read(register) { return answered(this.calls.thurafeqa_read(this.at, register)); }
        write(register, value) { return answered(this.calls.thurafeqa_write(this.at, register, value)); }
        tick(sdi, ss) { return answered(this.calls.thurafeqa_tick(this.at, sdi, ss)); }
        pins(sck, sdi, ss) { return answered(this.calls.thurafeqa_pins(this.at, sck, sdi, ss)); }
        clear() { this.calls.thurafeqa_clear(this.at); }
        levels() { return this.calls.thurafeqa_levels(this.at); }
        next() { return this.calls.thurafeqa_next(this.at); }
        wordsOwed() { return this.calls.thurafeqa_words_owed(this.at); }
        edgesOwed() { return this.calls.thurafeqa_edges_owed(this.at); }
        linked(client, limit) { return answered(this.calls.thurafeqa_linked(this.at, client.at, limit)); }

        // word(ss, word): a word at a time; how many levels of SDO were told
        word(ss, word) { return this.calls.thurafeqa_word(this.at, ss, word) >>> 24 & 31; }
    }

    // Card: one audio card, with the calls of include/thurafeqa_card.h under their short names
    class Card extends Held {
        constructor(library) {
            super(library, 160);
            this.powerUp();
        }

        powerUp() { this.calls.thurafeqa_card_power_up(this.at); }
        setProtocol(number) { return answered64(this.calls.thurafeqa_card_set_protocol(this.at, number)); }
        setLength(bits, frame) { return answered64(this.calls.thurafeqa_card_set_length(this.at, bits, frame)); }
        enable() { return answered64(this.calls.thurafeqa_card_enable(this.at)); }
        write(sample) { return answered64(this.calls.thurafeqa_card_write(this.at, sample)); }
        read() { return answered64(this.calls.thurafeqa_card_read(this.at)); }
        edge(sdi) { return answered64(this.calls.thurafeqa_card_edge(this.at, sdi)); }
        look() { return this.calls.thurafeqa_card_look(this.at) >>> 0; }
    }

    const longest = 65535; // bytes of a script or a trace

    // Files: trace files played, made of scripts and salvaged, in memory that is lent to the library
    class Files {
        constructor(library) {
            this.library = library;
            this.given = library.take(longest + 1);
            this.lent = library.take(longest + 1);
        }

        // lend(bytes): puts bytes where the library reads them, and tells how many; of more than it takes one too many is put
        lend(bytes) {
            const part = bytes.subarray(0, longest + 1);
            this.library.view(this.given, part.length).set(part);
            return BigInt(part.length);
        }

        // written(length): what the library has written, as a copy
        written(length) { return this.library.view(this.lent, length).slice(); }

        // play(module, trace): the answer; its value is the number of calls made
        play(module, trace) {
            const length = this.lend(trace);
            return answered(this.library.calls.thurafeqa_play(module.at, BigInt(this.given), length));
        }

        // save(script): the answer, and the trace that the script's bytes make
        save(script) {
            const length = this.lend(script.subarray(0, longest));
            const answer = answered(this.library.calls.thurafeqa_save(BigInt(this.given), length, BigInt(this.lent), BigInt(longest)));
            return { ...answer, trace: this.written(answer.value) };
        }

        // salvage(trace): the answer, the new trace, how many sections were cut, and how many bytes were lost
        salvage(trace) {
            const length = this.lend(trace);
            const told = BigInt.asUintN(64, this.library.calls.thurafeqa_salvage(BigInt(this.given), length, BigInt(this.lent), BigInt(longest)));
            const answer = answered(Number(told & 0xffffffffn));
            return { ...answer, trace: this.written(answer.value), lost: Number(told >> 32n & 0xffffn), cut: Number(told >> 48n) };
        }
    }

    return { knows64, fromBase64, load, version, Module, Card, Files, longest };
})();
