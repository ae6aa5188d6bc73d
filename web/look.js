// What can be seen of a module by the library's calls alone. A module's memory means something to the library only, so a look
// that no call gives is an experiment: a copy of the module is read, clocked or sent empty, and the module itself stays as it is.
// None of the module's rules is written here.
'use strict';

const Look = (() => {
    const H = Header.numbers;

    // hex(number, digits): upper-case digits, as scripts have them
    const hex = (number, digits) => number.toString(16).toUpperCase().padStart(digits, '0');

    const same = (one, two) => one.every((byte, i) => byte === two[i]);

    // create(library): looks at modules of that library, with a few modules of their own to try things on
    function create(library) {
        const trial = new Library.Module(library), other = new Library.Module(library);

        // copy(memory): a module to try things on
        function copy(memory) {
            trial.memory = memory;
            return trial;
        }

        const width = con1 => (con1 & H.CON1_MODE16 ? 16 : 8);

        // digits(memory): how many hexadecimal digits a word of this module has
        const digits = memory => width(copy(memory).read(H.CON1).value) / 4;

        // calm(module): SPIROV is cleared, so that it tells the next loss
        function calm(module) {
            const stat = module.read(H.STAT).value;
            module.write(H.STAT, stat & ~H.STAT_SPIROV);
            return module;
        }

        // take(module): all its unread words are taken out, and told; and the number that refuses the next read
        function take(module) {
            const words = [];
            for (;;) {
                const answer = module.read(H.BUF);
                if (answer.refusal) return { words, refusal: answer.refusal };
                words.push(answer.value);
            }
        }

        const overflowed = module => (module.read(H.STAT).value & H.STAT_SPIROV) !== 0;

        // step(memory, move, sdi): what a clock step does besides what its levels show; `move(module, sdi)` makes it. It samples
        // if the level at SDI makes a difference. A word has finished if there is then a word to read, or one was lost; one was
        // sent if fewer are owed than before.
        function step(memory, move, sdi) {
            const next = copy(memory).next(), owed = trial.wordsOwed();
            take(calm(copy(memory)));
            const empty = trial.memory;
            move(trial, sdi);
            const after = trial.memory;
            const sent = trial.wordsOwed() < owed;
            const full = overflowed(trial);
            const received = take(trial).words;
            other.memory = empty;
            move(other, sdi ? 0 : 1);
            const samples = !same(after, other.memory);
            const lost = overflowed((move(calm(copy(memory)), sdi), trial));
            return {
                samples,
                finished: received.length > 0 || full,
                lost,
                word: received.length > 0 ? received[0] : null,
                sent: sent ? next & 0xffff : null,
            };
        }

        // begun(memory, sdi): a client has begun a word that SS going high would end
        function begun(memory, sdi) {
            const sck = copy(memory).levels() & H.LEVELS_SCK;
            trial.pins(sck, sdi, 0);
            const held = trial.memory;
            trial.pins(sck, sdi, 1);
            trial.pins(sck, sdi, 0);
            return !same(held, trial.memory);
        }

        // selected(con1, con2): a client of these settings goes by SS, and takes a word into its shift register only as that begins
        const selected = (con1, con2) => con1 & H.CON1_SSEN && !(con1 & H.CON1_MSTEN) && !(con2 & H.CON2_FRMEN);

        // active(con2): the level of SS at which a module of these settings can send: its pulse, if it is framed, else low
        const active = con2 => (con2 & H.CON2_FRMEN && con2 & H.CON2_FRMPOL ? 1 : 0);

        const most = 70; // edges of a word, with those of a pulse

        // sends(module, ss): the words that it still has to send, the one under way first; it sends them all
        function sends(module, ss) {
            const words = [];
            for (let owed = module.wordsOwed(); owed > 0 && words.length < 20; owed = module.wordsOwed()) {
                words.push(module.next() & 0xffff);
                for (let i = 0; i < most && module.wordsOwed() >= owed; i++) module.word(ss, 0);
            }
            return words;
        }

        // left(memory, ss, w): how many bits of the word under way are still to come, and what comes in if they are 0, null if that
        // cannot be told: the word is lost, or there is none
        function left(memory, ss, w) {
            take(calm(copy(memory)));
            const count = trial.word(ss, 0), words = take(trial).words;
            if (!words.length && !overflowed(trial)) return { left: w, came: null };
            return { left: count, came: words.length ? words[0] : null };
        }

        // leftFramed(memory, ss, w): the same of a framed module, which is sent on edge by edge
        function leftFramed(memory, ss, w) {
            const move = (module, sdi) => module.word(ss, sdi);
            let now = memory, bits = 0;
            for (let i = 0; i < most; i++) {
                const seen = step(now, move, 0);
                if (seen.samples || (seen.finished && seen.word === null)) bits++;
                if (seen.finished) return { left: bits, came: seen.word };
                move(copy(now), 0);
                now = trial.memory;
            }
            return { left: w, came: null };
        }

        // all(memory): the registers, the levels, the words unread and to be sent, and of the shift register the word that goes out, the
        // bits that are left of it, and what has come in
        function all(memory) {
            const module = copy(memory);
            const stat = module.read(H.STAT).value, con1 = module.read(H.CON1).value, con2 = module.read(H.CON2).value;
            const ss = active(con2), w = width(con1), levels = module.levels();
            const next = module.next(), unread = take(copy(memory)), waiting = sends(copy(memory), ss);
            const loaded = next & H.NEXT_WORD && !(selected(con1, con2) && !begun(memory, 0));
            return {
                stat, con1, con2, levels, width: w, enabled: (stat & H.STAT_SPIEN) !== 0,
                unread: unread.words, unreadable: unread.refusal === H.OVERFLOWED,
                waiting, edgesOwed: copy(memory).edgesOwed(), next: loaded ? next & 0xffff : null,
                ...(con2 & H.CON2_FRMEN ? leftFramed : left)(memory, ss, w),
            };
        }

        return { step, begun, all, digits };
    }

    return { create, hex };
})();
