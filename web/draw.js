// Draws timing diagrams: what is to be drawn goes in, SVG text comes out. It needs no browser, and the page and the pictures of
// the documents are drawn by it alike.
//
// A diagram is
//   columns  from left to right: { kind, axis, label, text, arrow }. kind is 'step', one step of a clock, or 'call', or 'refused'.
//            axis is the number below; a call has lines of label above and an arrow, 'in' or 'out'; a refused one has the text
//            of its refusal below.
//   lanes    from top to bottom: { name, before, levels, kind, early, edges, samples, words }. levels has one for each column: 0, 1 or
//            'z', undriven; before is the one before them. early(i) says that the level of column i stands before its edge. edges
//            and samples are columns to mark, on the edge of this lane and on its level. A word is { first, last, text, kind }, over
//            the columns that sample its first and its last bit.
//   notes    { column, text, kind }: a word or two below a column
//
// Every label's place is arithmetic: letters have one width, a column is as wide as its labels, and what does not fit is left out.
'use strict';

const Draw = (() => {
    const glyph = 6.7, small = 6.1; // the widest that a letter of 11 and of 10 pixels is
    const wave = 18, gap = 15, over = 17; // the height of a wave, the room between two, and that for words above one
    const row = 14, line = 12; // the height of a line of labels, and of text below
    const edge = 10; // free room at both sides

    const round = n => String(Math.round(n * 10) / 10);
    const escape = text => text.replace(/&/g, '&amp;').replace(/</g, '&lt;').replace(/"/g, '&quot;');
    const longest = texts => Math.max(0, ...texts.map(t => t.length));

    // ---- colours, for light and dark

    const light = {
        paper: '#ffffff', desk: '#f6f6f3', ink: '#1d2126', muted: '#667078', line: '#dcdfe0', band: '#f1f4f8', redband: '#fbeeed',
        wave: '#1d2126', call: '#2257a5', refused: '#b3261e', sample: '#0a7a70', flag: '#935800',
    };
    const dark = {
        paper: '#16191d', desk: '#0f1114', ink: '#e7e9ea', muted: '#98a1a8', line: '#31373d', band: '#1d232b', redband: '#2e1c1c',
        wave: '#dfe3e6', call: '#8fb7f5', refused: '#ff8f85', sample: '#52c7ba', flag: '#eab260',
    };

    // colours(selector): both sets as CSS variables of that selector
    const colours = selector => {
        const set = list => Object.entries(list).map(([name, value]) => `--${name}:${value}`).join(';');
        return `${selector}{${set(light)}}\n@media (prefers-color-scheme:dark){${selector}{${set(dark)}}}\n`;
    };

    const font = 'ui-monospace,"DejaVu Sans Mono","SF Mono",Menlo,Consolas,"Liberation Mono",monospace';

    // shapes: the style of a drawing without its colours
    const shapes = `.td text{font:11px ${font}}.td .small,.td .why{font-size:10px}
.td path{fill:none;stroke-width:1}
.td .wave,.td .flagwave{stroke-width:1.4;stroke-linejoin:round}
.td .open{stroke-width:1.2;stroke-dasharray:3 3}.td .cut{stroke-dasharray:2 2}
.td .guide{stroke-opacity:.35;stroke-dasharray:1 3}
.td .arrow{stroke-width:1.3}.td .cross{stroke-width:1.6}
.td .dot,.td .rise{stroke:none}
`;

    // painted(c): the colours of a drawing, c(name) being one of them
    const painted = c => `.td text{fill:${c('ink')}}.td .small{fill:${c('muted')}}
.td .call{fill:${c('call')}}.td .why,.td text.refused{fill:${c('refused')}}.td text.flag,.td .rise{fill:${c('flag')}}
.td .band{fill:${c('band')}}.td .redband{fill:${c('redband')}}.td .paper{fill:${c('paper')}}
.td .wave{stroke:${c('wave')}}.td .flagwave{stroke:${c('flag')}}.td .open,.td .span,.td .cut{stroke:${c('muted')}}
.td .guide{stroke:${c('sample')}}.td .dot{fill:${c('sample')}}
.td .arrow{stroke:${c('call')}}.td .cross{stroke:${c('refused')}}
`;

    // style(): for the page, over its variables; styleAlone(): for a picture, which not every viewer would give variables
    const style = () => colours(':root') + shapes + painted(name => `var(--${name})`);
    const styleAlone = () => `${shapes}${painted(name => light[name])}@media (prefers-color-scheme:dark){\n${painted(name => dark[name])}}\n`;

    // ---- where everything is

    // wrapped(text, width): the text in lines of at most so many letters, if its words allow it
    function wrapped(text, width) {
        const lines = [''];
        for (const word of text.split(' ')) {
            const last = lines[lines.length - 1];
            if (last && last.length + 1 + word.length > width) lines.push(word);
            else lines[lines.length - 1] = last ? `${last} ${word}` : word;
        }
        return lines;
    }

    // across(columns, step): the columns with their places, a step being so wide
    function across(columns, step) {
        let x = edge;
        return columns.map(column => {
            const why = column.text ? wrapped(column.text, Math.max(11, longest(column.text.split(' ')))) : [];
            const width = column.kind === 'step' ? step
                : Math.max(longest(column.label) * glyph, longest(why) * small, 24) + 12;
            const placed = { ...column, why, x, width, at: column.kind === 'step' ? x : x + width / 2 };
            x += width;
            return placed;
        });
    }

    // layout(diagram, step): the places of columns and lanes, and the size of the whole
    function layout(diagram, step) {
        const columns = across(diagram.columns, step);
        const heads = Math.max(0, ...columns.map(c => (c.label ? c.label.length : 0)));
        let y = heads ? heads * row + 22 : 8;
        const lanes = diagram.lanes.map(lane => {
            if (lane.words && lane.words.length) y += over;
            const placed = { ...lane, high: y, low: y + wave, mid: y + wave / 2 };
            y += wave + gap;
            return placed;
        });
        const last = columns[columns.length - 1];
        const width = (last ? last.x + last.width : edge) + edge;
        const notes = noted(diagram.notes || [], columns, width);
        const below = y - gap + 8;
        const why = below + notes.rows * row;
        const whys = Math.max(0, ...columns.map(c => c.why.length));
        const axis = why + whys * line + (whys ? 4 : 0);
        return { columns, lanes, notes: notes.placed, step, heads, below, why, axis, width, height: axis + 18 };
    }

    // noted(notes, columns, width): each note in the first row in which it meets no other, and how many rows there are
    function noted(notes, columns, width) {
        const ends = [];
        const placed = notes.map(note => {
            const half = note.text.length * small / 2;
            const x = Math.min(Math.max(columns[note.column].at, half + 2), Math.max(width - half - 2, half + 2));
            let k = ends.findIndex(end => end <= x - half - 6);
            if (k < 0) k = ends.length;
            ends[k] = x + half;
            return { ...note, x, row: k };
        });
        return { placed, rows: ends.length };
    }

    // ---- parts

    const path = (kind, d) => (d ? `<path class="${kind}" d="${d}"/>` : '');
    const text = (kind, x, y, words, anchor = ' text-anchor="middle"') =>
        `<text${kind ? ` class="${kind}"` : ''} x="${round(x)}" y="${round(y)}"${anchor}>${escape(words)}</text>`;

    // bands(l): calls stand apart from the clock
    const bands = l => l.columns.filter(c => c.kind !== 'step').map(c =>
        `<rect class="${c.kind === 'refused' ? 'redband' : 'band'}" x="${round(c.x + 1)}" y="2" width="${round(c.width - 2)}" ` +
        `height="${round(l.axis - 2)}" rx="3"/>`).join('');

    // heads(l): what each call is, and which way its value goes
    function heads(l) {
        let arrows = '', crosses = '';
        const labels = l.columns.filter(c => c.label).map(c => {
            const from = l.heads - c.label.length;
            const foot = l.heads * row + 5;
            if (c.kind === 'refused') crosses += `M${round(c.at - 4)} ${foot}l8 8m0-8l-8 8`;
            else if (c.arrow === 'in') arrows += `M${round(c.at)} ${foot - 1}v10m-3-4l3 4 3-4`;
            else if (c.arrow === 'out') arrows += `M${round(c.at)} ${foot + 9}v-10m-3 4l3-4 3 4`;
            return c.label.map((words, i) => {
                const last = i === c.label.length - 1;
                const kind = !last ? 'small' : c.kind === 'refused' ? 'refused' : 'call';
                return text(kind, c.at, (from + i + 1) * row - 1, words);
            }).join('');
        }).join('');
        return labels + path('arrow', arrows) + path('cross', crosses);
    }

    // changes(lane, l): where the lane's level changes, with the level from there on
    function changes(lane, l) {
        const found = [{ x: edge, level: lane.before }];
        lane.levels.forEach((level, i) => {
            const c = l.columns[i];
            if (found[found.length - 1].level === level) return;
            const sooner = c.kind === 'step' && lane.early && lane.early(i) ? l.step * 0.35 : 0;
            found.push({ x: Math.max(edge, c.at - sooner), level });
        });
        return found;
    }

    // waves(lane, l): the lane's levels as a line, dashed in the middle where it is undriven
    function waves(lane, l) {
        const found = changes(lane, l);
        const y = level => (level === 1 ? lane.high : level === 0 ? lane.low : lane.mid);
        let solid = '', open = '', before = 'z', rises = '';
        found.forEach((f, i) => {
            const end = i + 1 < found.length ? found[i + 1].x : l.width - edge;
            if (f.level === 'z') open += `M${round(f.x)} ${lane.mid}H${round(end)}`;
            else {
                solid += before === 'z' ? `M${round(f.x)} ${i ? lane.mid : y(f.level)}` : '';
                solid += before === 'z' && !i ? `H${round(end)}` : `V${y(f.level)}H${round(end)}`;
                if (lane.kind === 'flag' && f.level === 1 && i) rises += `M${round(f.x)} ${lane.mid - 5}l4 8h-8z`;
            }
            before = f.level;
        });
        return path('open', open) + path(lane.kind === 'flag' ? 'flagwave' : 'wave', solid) + path('rise', rises);
    }

    // guides(l): from each edge that samples down to the levels that it takes
    const guides = l => path('guide', l.step < 12 ? '' : l.lanes.flatMap(lane => (lane.edges || []).map(i =>
        `M${round(l.columns[i].at)} ${lane.low}V${deepest(l)}`)).join(''));

    // marks(l): the edges that sample, and the levels that they take
    function marks(l) {
        let dots = '';
        for (const lane of l.lanes) {
            for (const i of lane.edges || []) {
                const x = round(l.columns[i].at);
                if (l.step >= 8) dots += lane.levels[i] ? `M${x} ${lane.mid - 5}l3.5 8h-7z` : `M${x} ${lane.mid + 5}l3.5-8h-7z`;
            }
            for (const i of lane.samples || []) {
                const r = l.step >= 8 ? 2.6 : 2.1;
                const level = lane.early ? lane.levels[i] : i ? lane.levels[i - 1] : lane.before;
                const y = level === 1 ? lane.high : level === 0 ? lane.low : lane.mid;
                dots += `M${round(l.columns[i].at - r)} ${y}l${r}-${r} ${r} ${r}-${r} ${r}z`;
            }
        }
        return path('dot', dots);
    }

    // deepest(l): the foot of the lowest lane that is sampled
    const deepest = l => Math.max(...l.lanes.filter(lane => lane.samples).map(lane => lane.low), 0);

    // spans(lane, l): a line over each word's bits with its value in the middle; bits reach half a bit to both sides of their sample
    function spans(lane, l) {
        const y = lane.high - 9;
        let whole = '', cut = '';
        const labels = (lane.words || []).map(word => {
            const from = l.columns[word.first].at - l.step + 1, to = l.columns[word.last].at + l.step - 1;
            const half = word.text.length * glyph / 2 + 3, mid = (from + to) / 2;
            const fits = word.text && to - from > 2 * half + 6;
            const open = fits ? `${round(mid - half)}M${round(mid + half)} ${y}H` : '';
            const d = `M${round(from)} ${y - 3}v6m0-3H${open}${round(to)}m0-3v6`;
            if (word.kind === 'cut') cut += d;
            else whole += d;
            return fits ? text(word.kind || '', mid, y + 4, word.text) : '';
        }).join('');
        return path('span', whole) + path('cut', cut) + labels;
    }

    // notes(l): words below a column
    const notes = l => l.notes.map(n => text(`small ${n.kind}`, n.x, l.below + n.row * row + 9, n.text)).join('');

    // whys(l): why a call was refused, below it
    const whys = l => l.columns.map(c => c.why.map((words, i) => text('why', c.at, l.why + (i + 1) * line - 2, words)).join('')).join('');

    // axis(l): numbers below: those of calls, and of clock steps in an even measure, where they meet no other
    function axis(l) {
        const width = longest(l.columns.map(c => c.axis || '')) * small;
        const every = [1, 2, 4, 8, 16, 32, 64].find(n => n * l.step >= width + 8) || 128;
        const taken = [];
        const free = (x, half) => taken.every(t => Math.abs(t.x - x) >= t.half + half + 5);
        const put = (x, words) => {
            const half = words.length * small / 2;
            if (!free(x, half)) return '';
            taken.push({ x, half });
            return text('small', x, l.axis + 11, words);
        };
        const middle = c => c.x + c.width / 2;
        let said = l.columns.filter(c => c.kind !== 'step' && c.axis).map(c => put(middle(c), c.axis)).join('');
        l.columns.forEach((c, i) => {
            if (c.kind !== 'step' || !c.axis) return;
            let first = i;
            while (first > 0 && l.columns[first - 1].kind === 'step' && l.columns[first - 1].axis !== undefined) first--;
            if ((i - first) % every === 0) said += put(middle(c), c.axis);
        });
        return said;
    }

    // ---- the whole

    // names(diagram, l): the lanes' names, for the left side, and how wide they are
    function names(diagram, l) {
        const width = longest(diagram.lanes.map(lane => lane.name)) * glyph + 18;
        return { width, body: l.lanes.map(lane => text('', 10, lane.mid + 4, lane.name, '')).join('') };
    }

    // body(l): all of it but the names
    const body = l => bands(l) + l.lanes.map(lane => spans(lane, l)).join('') + guides(l) + l.lanes.map(lane => waves(lane, l)).join('') +
        marks(l) + heads(l) + notes(l) + whys(l) + axis(l);

    const opened = (width, height, title) =>
        `<svg xmlns="http://www.w3.org/2000/svg" class="td" width="${round(width)}" height="${round(height)}" ` +
        `viewBox="0 0 ${round(width)} ${round(height)}" role="img" aria-label="${escape(title)}">`;

    // view(diagram, step, title): the names and the waves apart, so that the waves can scroll, with the layout
    function view(diagram, step, title) {
        const l = layout(diagram, step), left = names(diagram, l);
        return {
            layout: l,
            names: opened(left.width, l.height, 'lanes') + left.body + '</svg>',
            waves: opened(l.width, l.height, title) + body(l) + '</svg>',
        };
    }

    // picture(diagram, step, title): one SVG file with its own colours and background
    function picture(diagram, step, title) {
        const l = layout(diagram, step), left = names(diagram, l);
        const width = left.width + l.width, height = l.height + 12;
        return opened(width, height, title) + `<title>${escape(title)}</title><style>${styleAlone()}</style>` +
            `<rect class="paper" width="${round(width)}" height="${round(height)}" rx="6"/>` +
            `<g transform="translate(0 6)">${left.body}<g transform="translate(${round(left.width)} 0)">${body(l)}</g></g></svg>\n`;
    }

    return { view, picture, style, font };
})();
