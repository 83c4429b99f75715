
'use strict';
// The page is whole without this, which adds the search box and a readout to the plot. Levels are read off the tables, so that no number
// stands on the page twice.
(() => {
  const byId = id => document.getElementById(id);
  const all = (where, within = document) => [...within.querySelectorAll(where)];

  // `9`, or `9–20`.
  const ends = numbers => {
    const [first, last = first] = (numbers.match(/\d+(\.\d)?/g) || [0]).map(Number);
    return { first, last };
  };
  const within = ({ first, last }, number) => first <= number && number <= last;

  // The lit channels of a memory's row, in runs: first, last, and the element with the level.
  const known = new Map();
  const lit = row => {
    if (!known.has(row)) known.set(row, all('.levels b', row).map(level => ({ ...ends(level.previousSibling.data), level })));
    return known.get(row);
  };
  const levelOf = (row, channel) => lit(row).find(run => within(run, channel))?.level;

  // What can be found: its element, its kind, its number or numbers, the channel or channels that it is about, and its text.
  const things = () => {
    // Where it was numbered anew, it is found by the number that it had as well.
    const before = row => row.querySelector('.was')?.textContent.match(/^was (\d+(\.\d+)?)( |$)/)?.[1];
    const memory = kind => row => ({ row, kind, numbers: ends(row.id.split('-')[2]), was: Number(before(row)),
      about: channel => Boolean(levelOf(row, channel)) });
    const dimmer = row => ({ row, kind: 'dimmer', numbers: ends(row.querySelector('b').textContent), text: row.ariaLabel,
      about: channel => row.querySelector('span')?.textContent === String(channel) });
    const line = kind => row => ({ row, kind, numbers: ends(row.firstElementChild.textContent), about: () => false,
      received: row.querySelector('.received')?.textContent || '' });
    return [
      ...all('#cues .memory').map(memory('cue')), ...all('#groups .memory').map(memory('group')),
      ...all('#submasters .memory').map(memory('submaster')), ...all('#patch li').map(dimmer),
      ...all('#reports tbody tr').map(line('report')), ...all('#stream tbody tr').map(line('record')),
    ];
  };

  // `channel 33`, `cue 4.5`, `33`: a number, of a kind or of any. All else is looked for as text.
  const kinds = { cue: ['cue'], group: ['group'], sub: ['submaster'], ch: [], dim: ['dimmer'], rec: ['record', 'report'] };
  const asked = query => {
    const [, word = '', number] = /^(?:(cue|group|sub|ch|dim|rec)[a-z]*\s*)?(\d+(?:\.\d+)?)$/i.exec(query) || [];
    const kind = word.toLowerCase();
    return { query, number, named: kind ? kinds[kind] : Object.values(kinds).flat(),
      channel: (!kind || kind === 'ch') && Number(number), inText: number && kind !== 'rec' };
  };
  const fitting = ({ query, number, named, channel, inText }) => {
    if (!number) {
      const text = query.toLowerCase();
      return thing => (thing.text || thing.row.textContent).toLowerCase().includes(text);
    }
    const among = new RegExp(`(^|[^\\w.])${number.replace('.', '\\.')}(?![\\w.])`);
    return thing => named.includes(thing.kind) && (within(thing.numbers, Number(number)) || thing.was === Number(number))
      || Boolean(channel) && thing.about(channel)
      || inText && among.test(thing.received || '');
  };

  // A number in a record may be a channel, a level or a time: the page does not guess which, and says so.
  const told = ({ query, inText }, counts) => {
    const words = (kind, count) => `${count} ${kind}${count === 1 ? '' : 's'}${inText && /^re/.test(kind) ? ' with this number' : ''}`;
    const found = Object.entries(counts).map(([kind, count]) => words(kind, count));
    return `${query}: ${found.join(', ') || 'nothing found'}`;
  };

  // The level of a channel that is searched for stands out, in the tables and in the plot.
  const stress = (channel, rows) => {
    for (const level of all('.hit')) level.classList.remove('hit');
    plot?.querySelector('.band')?.remove();
    if (!channel) return;
    for (const row of rows) levelOf(row, channel)?.classList.add('hit');
    if (plot && channel <= grid.columns)
      drawn('band', grid.left + (channel - 1) * grid.width, grid.top, grid.width, grid.rows * grid.height);
  };

  let everything;
  const search = query => {
    everything ||= things();
    const ask = asked(query);
    const fits = query ? fitting(ask) : () => true;
    const counts = {};
    for (const thing of everything) {
      const fit = fits(thing);
      if (thing.row.hidden === fit) thing.row.hidden = !fit;
      if (fit) counts[thing.kind] = (counts[thing.kind] || 0) + 1;
    }
    for (const heading of all('tr.page')) heading.hidden = !heading.parentElement.querySelector('.memory:not([hidden])');
    stress(ask.channel, all('.memory:not([hidden])'));
    byId('found').textContent = query ? told(ask, counts) : '';
    const records = byId('stream').querySelector('details');
    if (query && records && counts.record <= 400) records.open = true;
  };

  const box = byId('search');
  let waiting;
  box.addEventListener('input', () => {
    clearTimeout(waiting);
    waiting = setTimeout(() => search(box.value.trim()), 120);
  });
  addEventListener('keydown', event => {
    if (event.key === '/' && !event.ctrlKey && !event.metaKey && document.activeElement !== box) {
      event.preventDefault();
      box.focus();
    } else if (event.key === 'Escape' && box.value) {
      clear();
    }
  });
  // A link leads to what the search has hidden, too.
  const clear = () => {
    box.value = '';
    search('');
  };
  const reveal = id => {
    if (byId(id)?.closest('[hidden]')) clear();
  };
  addEventListener('click', event => {
    const link = event.target.closest('a[href^="#"]');
    if (link) reveal(link.hash.slice(1));
  });
  byId('finder').hidden = false;

  // The plot: where the pointer or the arrow keys stand, the readout says cue, channel and level.
  const plot = byId('levels');
  if (!plot) return;
  const readout = byId('readout');
  const grid = Object.fromEntries(Object.entries(plot.dataset).map(([name, value]) => [name, Number(value)]));
  const rows = all('#cues .memory');
  const drawn = (name, x, y, width, height) => {
    const rect = plot.querySelector('.' + name) || plot.appendChild(plot.querySelector('rect').cloneNode());
    for (const [key, value] of Object.entries({ class: name, x, y, width, height })) rect.setAttribute(key, value);
  };
  const at = { row: 0, channel: 1 };
  const point = (row, channel) => {
    at.row = Math.max(0, Math.min(grid.rows - 1, row));
    at.channel = Math.max(1, Math.min(grid.columns, channel));
    const [, page, number] = rows[at.row].id.split('-');
    const level = levelOf(rows[at.row], at.channel);
    const shown = level ? `${level.textContent}% ${level.title}` : 'out';
    const was = rows[at.row].querySelector('.was');
    readout.textContent = `cue ${number}, page ${page}${was ? `, ${was.textContent}` : ''} \u00b7 channel ${at.channel} \u00b7 ${shown}`;
    drawn('cursor', grid.left + (at.channel - 1) * grid.width, grid.top + at.row * grid.height, grid.width, grid.height);
  };
  plot.addEventListener('pointermove', event => {
    const { left, top } = plot.getBoundingClientRect();
    const row = Math.floor((event.clientY - top - grid.top) / grid.height);
    const channel = Math.floor((event.clientX - left - grid.left) / grid.width) + 1;
    if (within({ first: 0, last: grid.rows - 1 }, row) && within({ first: 1, last: grid.columns }, channel)) point(row, channel);
  });
  const lead = () => {
    reveal(rows[at.row].id);
    location.hash = rows[at.row].id;
  };
  plot.addEventListener('click', lead);
  plot.addEventListener('keydown', event => {
    const [down, across] = { ArrowUp: [-1, 0], ArrowDown: [1, 0], ArrowLeft: [0, -1], ArrowRight: [0, 1] }[event.key] || [];
    if (event.key === 'Enter') lead();
    if (down === undefined) return;
    event.preventDefault();
    point(at.row + down, at.channel + across);
  });
  plot.tabIndex = 0;
  readout.textContent = 'Point at a cell, or use the arrow keys, to read it; press it for its cue.';
})();
