// A diagram on the page: the names stand still and the waves scroll. A column can be pointed at, and one is chosen; what lies
// ahead of it is dimmed.
'use strict';

// View: shows diagrams in an element. onPoint(column) is told of the column under the pointer, -1 if there is none, onChoose(column) of a
// column that was clicked or reached by the keyboard, and onStep(by), if there is one, of as many columns to go on or back.
class View {
    constructor(element, title, { onPoint, onChoose, onStep }) {
        this.title = title;
        this.step = 18;
        this.chosen = -1;
        this.onStep = onStep || (by => onChoose(Math.min(this.layout.columns.length - 1, Math.max(-1, this.chosen + by))));
        element.classList.add('view');
        element.innerHTML = '<div class="names"></div><div class="waves" tabindex="0" role="group"><div class="sheet">' +
            '<div class="drawn"></div><div class="ahead"></div><div class="pointed"></div><div class="chosen"></div></div></div>';
        const part = name => element.querySelector(`.${name}`);
        [this.names, this.waves, this.drawn, this.ahead, this.pointed, this.cursor] =
            ['names', 'waves', 'drawn', 'ahead', 'pointed', 'chosen'].map(part);
        this.waves.setAttribute('aria-label', `${title}: arrow keys go from column to column, plus and minus zoom`);
        this.drawn.addEventListener('pointermove', event => this.point(this.columnAt(event), onPoint));
        this.drawn.addEventListener('pointerleave', () => this.point(-1, onPoint));
        this.drawn.addEventListener('click', event => {
            const column = this.columnAt(event);
            if (column >= 0) onChoose(column);
        });
        this.waves.addEventListener('keydown', event => this.key(event));
    }

    // show(diagram): draws it anew
    show(diagram) {
        this.diagram = diagram;
        const made = Draw.view(diagram, this.step, this.title);
        this.layout = made.layout;
        this.names.innerHTML = made.names;
        this.drawn.innerHTML = made.waves;
        this.choose(Math.min(this.chosen, diagram.columns.length - 1), false);
    }

    // zoom(factor): draws it wider or narrower; what is in the middle stays there
    zoom(factor) {
        this.step = Math.min(48, Math.max(3, this.step * factor));
        if (!this.diagram) return;
        const half = this.waves.clientWidth / 2, at = (this.waves.scrollLeft + half) / this.layout.width;
        this.show(this.diagram);
        this.waves.scrollLeft = at * this.layout.width - half;
    }

    columnAt(event) {
        const x = event.clientX - this.drawn.getBoundingClientRect().left;
        return this.layout.columns.findIndex(c => x >= c.x && x < c.x + c.width);
    }

    point(column, tell) {
        this.place(this.pointed, column);
        tell(column);
    }

    // place(element, column): lays an element over a column
    place(element, column) {
        const c = this.layout && this.layout.columns[column];
        element.style.display = c ? 'block' : 'none';
        if (c) Object.assign(element.style, { left: `${c.x}px`, width: `${c.width}px` });
    }

    // choose(column, reveal): makes it the chosen one, and scrolls to it
    choose(column, reveal = true) {
        this.chosen = column;
        this.place(this.cursor, column);
        const c = this.layout.columns[column], end = this.layout.width;
        const from = c ? c.x + c.width : column < 0 ? 0 : end;
        Object.assign(this.ahead.style, { left: `${from}px`, width: `${Math.max(0, end - from)}px` });
        if (!c || !reveal) return;
        const room = this.waves.clientWidth;
        if (c.x < this.waves.scrollLeft + 40 || c.x + c.width > this.waves.scrollLeft + room - 40)
            this.waves.scrollLeft = Math.max(0, c.x - room / 2);
    }

    key(event) {
        if (event.altKey || event.ctrlKey || event.metaKey) return;
        const by = { ArrowLeft: -1, ArrowUp: -1, ArrowRight: 1, ArrowDown: 1, Home: -Infinity, End: Infinity }[event.key];
        if (event.key === '+' || event.key === '=') this.zoom(1.25);
        else if (event.key === '-') this.zoom(0.8);
        else if (by !== undefined) this.onStep(by);
        else return;
        event.preventDefault();
    }
}

// Inspector: a module's registers by the names of their bits, its buffers and its shift register, as HTML
const Inspector = (() => {
    const registers = ['STAT', 'CON1', 'CON2'];
    const escape = text => String(text).replace(/&/g, '&amp;').replace(/</g, '&lt;');

    // fields(register): its named fields, from the highest bit on: name, mask and lowest bit
    const fields = register => Object.entries(Header.numbers)
        .filter(([name]) => name.startsWith(`${register}_`) && !name.endsWith('_SHIFT'))
        .map(([name, mask]) => ({
            name: name.slice(register.length + 1), mask, low: Math.log2(mask & -mask), bits: mask.toString(2).replace(/0/g, '').length,
        }));

    // chips(register, value): each field with its bits
    const chips = (register, value) => fields(register).map(f => {
        const bits = ((value & f.mask) >>> f.low).toString(2).padStart(f.bits, '0');
        return `<span class="chip${value & f.mask ? ' on' : ''}">${f.name} <b>${bits}</b></span>`;
    }).join('');

    const words = (list, digits, none) =>
        (list.length ? list.map(w => `<span class="word">${Look.hex(w, digits)}</span>`).join('') : `<i>${none}</i>`);

    // bits(word, known, width): the bits of a word, the highest first, as cells; one that is not known is open
    const bits = (word, known, width) => Array.from({ length: width }, (_, i) =>
        `<span class="bit${known(i) ? '' : ' open'}">${known(i) ? word >> (width - 1 - i) & 1 : '·'}</span>`).join('');

    // shift(look): the shift register: of the word that goes out the bits that are still to come, and of the other those that have come in
    function shift(look) {
        const w = look.width, gone = w - look.left;
        if (!look.enabled) return '<i>disabled</i>';
        const out = look.next === null ? '<i>no word</i>' : `<span class="bits">${bits(look.next, i => i >= gone, w)}</span>`;
        const came = `<span class="bits">${bits(look.came, i => look.came !== null && i < gone, w)}</span>`;
        return `<span class="way">out ${out}</span><span class="way">in ${came}</span>`;
    }

    // module(look, heading): all of it
    function module(look, heading) {
        const digits = look.width / 4;
        const value = { STAT: look.stat, CON1: look.con1, CON2: look.con2 };
        const rows = registers.map(r => `<dt>${r} <b>${Look.hex(value[r], 4)}</b></dt><dd>${chips(r, value[r])}</dd>`).join('');
        const owed = look.edgesOwed ? `<i>${look.edgesOwed} edges</i>` : '';
        const unread = look.unreadable ? '<i>words were lost, so none can be read (16)</i>' : words(look.unread, digits, 'none');
        return `<h3>${escape(heading)}</h3><dl>${rows}<dt>To send</dt><dd>${words(look.waiting, digits, 'none')}${owed}</dd>` +
            `<dt>Unread</dt><dd>${unread}</dd><dt>Shift register</dt><dd>${shift(look)}</dd>` +
            `<dt>INT</dt><dd>${look.levels & Header.numbers.LEVELS_INTERRUPT ? '1' : '0'}</dd></dl>`;
    }

    return { module, escape };
})();
