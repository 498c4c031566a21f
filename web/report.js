'use strict';
// Draws what the pages of `dnorm-files look` have besides their text: by look.js, the costs of a pair and the arcs
// around it; the sizes of the files of a folder, and a table of them. Numbers are texts: they have up to 128 bits.

const { across, around, costs, draw, figure, grouped, make, plot, upwards } = look;
const data = JSON.parse(document.getElementById('data').textContent);
// How many files the table shows at once.
const SHOWN = 300;
const names = data.sides ?? ['left', 'right'];

function showCosts({ curves, cuts = [], cut, left, right, ...numbers }) {
  const whole = (text) => (text === null ? null : BigInt(text));
  const difference = Object.fromEntries(Object.entries({ left, right, ...numbers }).map(([k, v]) => [k, whole(v)]));
  const all = curves.map((curve, i) => ({ corners: curve.map((corner) => corner.map(BigInt)), cuts: cuts[i] }));
  const note = cut ? [make('p', {}, `Of a file, only ${grouped(cut)} corners are drawn.`)] : [];
  document.getElementById('costs').append(...note, ...costs(difference, all, names));
}

// The cells of a column, by file.
const cells = (files, name, count) => (files[name] ? files[name].split(' ') : Array(count).fill(''));

// The axis of a picture for numbers, from one place to another, on a logarithmic scale. Its ticks are powers of ten, or
// where these are few, also their doubles and fivefolds, as far as there is room for so many pixels between them.
function logarithms(title, numbers, [from, to], room) {
  const greatest = numbers.reduce((a, b) => Math.max(a, b), 10);
  const at = (it) => from + ((to - from) * Math.log10(it)) / Math.log10(greatest);
  const ticks = [];
  for (let power = 1; power <= greatest; power *= 10) {
    for (const it of (greatest < 1000 ? [1, 2, 5] : [1]).map((times) => times * power)) {
      const isNear = ticks.length > 0 && Math.abs(at(it) - at(ticks.at(-1)[0])) < room;
      if (it <= greatest && !isNear) ticks.push([it, it < 1000 ? it : `10^${Math.log10(it)}`]);
    }
  }
  return { title, at, ticks, greatest };
}

// Files of one kind at one place of the picture are one circle.
function sizesOf(files, names, drawn, [nodes, arcs, kind], width) {
  const x = logarithms('nodes', drawn.map((i) => nodes[i]), across(width), 40);
  const y = logarithms('arcs', drawn.map((i) => arcs[i]), upwards, 16);
  const said = `${grouped(drawn.length)} graphs by their nodes, up to ${grouped(x.greatest)}, and their arcs, up to `
    + `${grouped(y.greatest)}, on logarithmic scales.`;
  const bins = new Map();
  for (const i of drawn) {
    const key = `${Math.round(x.at(nodes[i]))} ${Math.round(y.at(arcs[i]))} ${kind[i]}`;
    if (!bins.has(key)) bins.set(key, []);
    bins.get(key).push(i);
  }
  return plot(width, said, x, y, ...[...bins].map(([key, found]) => {
    const [cx, cy, of] = key.split(' ');
    const [first] = found;
    const told = `${found.length} ${files.kinds[of]}: ${names[first]}, ${nodes[first]} nodes, ${arcs[first]} arcs`;
    const style = { r: Math.min(14, 3 + Math.sqrt(found.length)), fill: `var(--${files.colours[of]})` };
    return draw('circle', { cx, cy, ...style, 'fill-opacity': 0.55 }, draw('title', {}, told));
  }));
}

function showSizes(files, names) {
  const columns = ['nodes', 'canonical', 'kind'].map((it) => cells(files, it, names.length));
  const drawn = names.map((_, i) => i).filter((i) => columns[0][i] > 0 && columns[1][i] > 0);
  const none = make('p', {}, 'There is no graph with arcs.');
  const shown = drawn.length ? figure((width) => [sizesOf(files, names, drawn, columns, width)]) : none;
  document.getElementById('sizes').append(shown);
}

// The columns of the table: what the head says, a text for each file, and whether they are numbers.
function tableOf(files, names) {
  const of = (name) => cells(files, name, names.length);
  const listed = (name, list) => of(name).map((it) => (it === '' ? '' : list[it]));
  const notes = listed('note', files.notes);
  const texts = [['Name', names], ['Kind', listed('kind', files.kinds)], ['Cause or remark', notes]];
  const numbers = [['Bytes', 'bytes'], ['Nodes', 'nodes'], ['Lines', 'declared'], ['Canonical', 'canonical'],
    ['Merged', 'merged'], ['Self-loops', 'self_loops'], ['Group', 'group']];
  const since = files.since ? [['Since', listed('since', files.sinces)]] : [];
  if (files.line) numbers.unshift(['Fault at line', 'line']);
  return [
    ...[...texts, ...since].map(([head, column]) => ({ head, column, isNumber: false })),
    ...numbers.map(([head, name]) => ({ head, column: of(name), isNumber: true })),
  ];
}

function showFiles(files, names) {
  const columns = tableOf(files, names);
  const found = columns.filter((it) => !it.isNumber).map((it) => it.column);
  const searched = names.map((_, i) => found.map((column) => column[i]).join(' ').toLowerCase());
  // What is not accepted comes first.
  const isFaulty = cells(files, 'kind', names.length).map((it) => ['refused', 'failed'].includes(files.kinds[it]));
  const order = names.map((_, i) => i).sort((i, j) => isFaulty[j] - isFaulty[i] || i - j);
  const state = { by: null, down: false, shown: 0 };
  const label = 'Filter by name, kind, cause or remark';
  const filter = make('input', { type: 'search', id: 'filter', 'aria-label': label, placeholder: 'Filter' });
  const told = make('p', { role: 'status', id: 'told' });
  const body = make('tbody', {});
  const more = make('button', { id: 'more' }, `Show ${SHOWN} more`);
  const heads = columns.map(({ head, isNumber }, at) => {
    const onclick = () => sort(at);
    return make('th', { scope: 'col', class: isNumber ? 'number' : '' }, make('button', { onclick }, head));
  });

  function render(shown) {
    state.shown = shown;
    const wanted = filter.value.toLowerCase();
    const chosen = order.filter((i) => searched[i].includes(wanted));
    const rows = chosen.slice(0, shown).map((i) => make('tr', {}, ...columns.map(({ column, isNumber }) =>
      make('td', isNumber ? { class: 'number' } : {}, column[i]))));
    body.replaceChildren(...rows);
    const part = rows.length < chosen.length ? `, of which the first ${grouped(rows.length)} are shown` : '';
    told.textContent = `${grouped(chosen.length)} of ${grouped(names.length)} files${part}`;
    more.hidden = rows.length === chosen.length;
    heads.forEach((it, at) => {
      if (at === state.by) it.setAttribute('aria-sort', state.down ? 'descending' : 'ascending');
      else it.removeAttribute('aria-sort');
    });
  }

  function sort(at) {
    state.down = state.by === at && !state.down;
    state.by = at;
    const { column, isNumber } = columns[at];
    // Numbers have up to 64 bits.
    const keys = isNumber ? column.map((it) => BigInt(it || -1)) : column;
    const rising = (i, j) => (keys[i] < keys[j] ? -1 : Number(keys[i] > keys[j]));
    order.sort((i, j) => (state.down ? rising(j, i) : rising(i, j)) || i - j);
    render(SHOWN);
  }

  filter.oninput = () => render(SHOWN);
  more.onclick = () => render(state.shown + SHOWN);
  const table = make('table', {}, make('thead', {}, make('tr', {}, ...heads)), body);
  const row = make('div', { class: 'row' }, filter, told);
  document.getElementById('files').append(row, make('div', { class: 'wide' }, table), more);
  render(SHOWN);
}

if (data.cost) showCosts(data.cost);
if (data.around) document.getElementById('around').append(...around(data.around, names));
if (data.files) {
  const all = data.files.names === '' ? [] : data.files.names.split('\n');
  showSizes(data.files, all);
  showFiles(data.files, all);
}
