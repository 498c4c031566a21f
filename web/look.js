'use strict';
// Draws how two files differ: the least costs of a pair of nodes in two `min` problems, with a table of the corners,
// the arcs around a pair, and a table of pairs. The page that checks files has it, and so have the pages of `look`.
//
// A curve is a list of corners [amount, cost] by rising amount, numbers that are BigInts: the least cost of an amount
// between two corners is on the line between them, and outside of the list an amount is infeasible, unless the curve is
// cut at that end.

const look = (() => {
  // Pictures have the width of their place, within these bounds.
  const [LEAST, MOST, HEIGHT] = [240, 720, 320];
  const EDGES = { left: 84, right: 24, top: 34, bottom: 44 };
  // How many corners of a curve may get dots, and how many a row of the table.
  const [DOTS, ROWS] = [60, 200];
  const COLOURS = ['left', 'right'];
  const SIDES = { same: ['soft', 1.2], left: ['left', 2.5], right: ['right', 2.5], differs: ['bad', 2.5] };

  // Makes elements of text alone, so that no name of a file is read as HTML.
  const maker = (space) => (tag, words, ...inside) => {
    const it = document.createElementNS(space, tag);
    for (const [key, value] of Object.entries(words)) {
      if (key.startsWith('on')) it[key] = value;
      else it.setAttribute(key, value);
    }
    it.append(...inside.filter((part) => part !== null));
    return it;
  };
  const make = maker(document.documentElement.namespaceURI);
  const draw = maker('http://www.w3.org/2000/svg');
  const picture = (width, height, said, ...inside) => draw(
    'svg', { viewBox: `0 0 ${width} ${height}`, width, height, role: 'img', 'aria-label': said }, ...inside);

  /** A figure that is drawn anew when its place has another width, so that its words keep their size. */
  function figure(drawn) {
    const it = make('figure', {});
    let last = 0;
    const fit = (room) => {
      const width = Math.round(Math.max(LEAST, Math.min(MOST, room)));
      if (width === last) return;
      last = width;
      it.replaceChildren(...drawn(width));
    };
    fit(document.documentElement.clientWidth - 90);
    new ResizeObserver(([{ contentRect }]) => contentRect.width && fit(contentRect.width)).observe(it);
    return it;
  }

  // A whole number with narrow blanks between groups of three digits.
  const grouped = (number) => String(number).replace(/\B(?=(\d{3})+$)/g, '\u202f');
  const isLong = (number) => String(number).replace('-', '').length > 9;
  const short = (number) => (isLong(number) ? Number(number).toExponential(2) : grouped(number));
  const rising = (a, b) => (a < b ? -1 : Number(a > b));
  const least = (numbers) => numbers.reduce((a, b) => (b < a ? b : a));
  const greatest = (numbers) => numbers.reduce((a, b) => (b > a ? b : a));

  /** The least cost of an amount, or null if it is infeasible. */
  function costAt(curve, amount) {
    let [next, most] = [0, curve.length];
    while (next < most) {
      const middle = (next + most) >> 1;
      if (curve[middle][0] < amount) next = middle + 1;
      else most = middle;
    }
    if (next === curve.length || amount < curve[0][0]) return null;
    const [to, cost] = curve[next];
    if (to === amount) return cost;
    const [from, below] = curve[next - 1];
    // Between two corners each unit costs the same.
    return below + ((cost - below) / (to - from)) * (amount - from);
  }

  // What the second file costs more, at the corners of both curves and at the difference, where both have a cost.
  function rise([left, right], { amount }) {
    const amounts = [...left, ...right].map(([it]) => it).concat([amount, amount - 1n]).sort(rising);
    return amounts
      .filter((it, i) => it !== amounts[i - 1] && costAt(left, it) !== null && costAt(right, it) !== null)
      .map((it) => [it, costAt(right, it) - costAt(left, it)]);
  }

  // The axis of a picture for numbers, from one place to another, with some of them as ticks. Their labels differ, and
  // where they are too long for that, they tell what the numbers are above the first one.
  function axis(name, numbers, [from, to], count) {
    const [low, high] = [least(numbers), greatest(numbers)];
    const share = (it) => (low === high ? 0.5 : Number(((it - low) * 1000000n) / (high - low)) / 1e6);
    const steps = Array.from({ length: count + 1 }, (_, i) => low + ((high - low) * BigInt(i)) / BigInt(count));
    const ticks = [...new Set(steps)];
    const isClear = new Set(ticks.map(short)).size === ticks.length;
    const label = (it) => (isClear ? short(it) : `+${short(it - low)}`);
    const title = isClear ? name : `${name}, above ${grouped(low)}`;
    return { title, at: (it) => from + share(it) * (to - from), ticks: ticks.map((it) => [it, label(it)]) };
  }

  const across = (width) => [EDGES.left, width - EDGES.right];
  const upwards = [HEIGHT - EDGES.bottom, EDGES.top];

  // A picture over two axes, with lines and labels at their ticks.
  function plot(width, said, x, y, ...inside) {
    const { left, right, top, bottom } = EDGES;
    const line = (words) => draw('line', { ...words, stroke: 'var(--line)' });
    const end = { 'text-anchor': 'end' };
    const lines = [...x.ticks.flatMap(([it, label]) => [
      line({ x1: x.at(it), x2: x.at(it), y1: top, y2: HEIGHT - bottom }),
      draw('text', { x: x.at(it), y: HEIGHT - bottom + 16, 'text-anchor': 'middle' }, label),
    ]), ...y.ticks.flatMap(([it, label]) => [
      line({ x1: left, x2: width - right, y1: y.at(it), y2: y.at(it) }),
      draw('text', { x: left - 8, y: y.at(it) + 4, ...end }, label),
    ])];
    const titles = [[width - 4, HEIGHT - 8, x.title, end], [4, 14, y.title, {}]];
    return picture(width, HEIGHT, said, ...lines, ...titles.map(([at, to, it, style]) =>
      draw('text', { x: at, y: to, ...style }, it)), ...inside);
  }

  // A curve. Where it is cut, it goes on by dots.
  function line({ corners, cuts = [false, false] }, i, colour, x, y, amount) {
    const stroke = `var(--${colour})`;
    const points = corners.map(([it, cost]) => `${x.at(it)},${y.at(cost)}`).join(' ');
    const dots = corners.length > DOTS ? [] : corners.map(([it, cost]) =>
      draw('circle', { cx: x.at(it), cy: y.at(cost), r: [4.5, 2.5][i], fill: stroke }));
    const cost = costAt(corners, amount);
    const ring = { r: 7, fill: 'none', stroke: 'var(--bad)', 'stroke-width': 2 };
    const style = { fill: 'none', stroke, 'stroke-width': [5, 2.5][i], 'stroke-dasharray': ['none', '7 5'][i] };
    const more = [corners[0], corners.at(-1)].flatMap(([it, at], end) => (!cuts[end] ? [] : [1, 2, 3].map((step) =>
      draw('circle', { cx: x.at(it) + (end ? 6 : -6) * step, cy: y.at(at), r: 1.5, fill: stroke, class: 'more' }))));
    return [
      draw('polyline', { points, ...style }),
      ...dots,
      ...more,
      ...(cost === null ? [] : [draw('circle', { cx: x.at(amount), cy: y.at(cost), ...ring })]),
    ];
  }

  const key = (colour, isDashed, told) => {
    const style = `border-color: var(--${colour}); border-top-style: ${isDashed ? 'dashed' : 'solid'}`;
    return make('span', {}, make('span', { class: 'key', style }), told);
  };

  // A picture of curves over all these amounts.
  function curvesOf(title, curves, colours, names, all, { at, to, amount, said }) {
    const keys = names.map((it, i) => key(colours[i], i === 1, it));
    const caption = make('figcaption', { class: 'row' }, make('b', {}, title), ...keys);
    return figure((width) => {
      const x = axis('amount', all, across(width), width < 480 ? 2 : 4);
      const y = axis('cost', curves.flatMap((curve) => curve.corners.map(([, it]) => it)), upwards, 4);
      const told = `${title} of the arcs from ${at} to ${to}; the first difference is at amount ${amount}: ${said}.`;
      const mark = { x1: x.at(amount), x2: x.at(amount), y1: EDGES.top, y2: HEIGHT - EDGES.bottom };
      const style = { stroke: 'var(--bad)', 'stroke-dasharray': '2 4', 'stroke-width': 2 };
      return [caption, plot(width, told, x, y, draw('line', { ...mark, ...style }),
        ...curves.flatMap((it, i) => line(it, i, colours[i], x, y, amount)))];
    });
  }

  // A table of rows of cells, which are lists of texts and elements, in a place that scrolls and is folded.
  function table(title, heads, rows) {
    const row = (tag, words, cells) => make('tr', {}, ...cells.map((it) => make(tag, words, ...[it].flat())));
    const all = make('table', {}, row('th', { scope: 'col' }, heads), ...rows.map((it) => row('td', {}, it)));
    const scroll = make('div', { class: 'scroll', tabindex: 0, role: 'group', 'aria-label': 'Table' }, all);
    return make('details', {}, make('summary', {}, title), scroll);
  }

  function corners(curves, names) {
    const rows = curves.flatMap((curve, i) => curve.corners.slice(0, ROWS).map((it) => [names[i], ...it.map(grouped)]));
    return table('The corners of both curves', ['File', 'Amount', 'Cost'], rows);
  }

  /** The pictures of a difference between two `min` problems of these names, and a table. The second picture is there
   *  where the difference of the costs is not the same everywhere. */
  function costs(difference, curves, names) {
    const { amount, left, right } = difference;
    const said = `${names[0]} ${left ?? 'none'}, ${names[1]} ${right ?? 'none'}`;
    const first = { ...difference, said };
    const all = [...curves.flatMap((it) => it.corners.map(([at]) => at)), amount];
    const more = rise(curves.map((it) => it.corners), difference);
    const isFlat = more.every(([, it]) => it === more[0][1]);
    const title = 'Difference of the least costs';
    const minus = [`${names[1]} minus ${names[0]}`];
    const second = isFlat ? [] : [curvesOf(title, [{ corners: more }], ['bad'], minus, all, first)];
    return [curvesOf('Least costs by amount', curves, COLOURS, names, all, first), ...second, corners(curves, names)];
  }

  // The places of nodes: the pair in the middle, and the others on an ellipse around it.
  function placed(pair, others, width, height) {
    const places = new Map(pair.map((node, i) => [node, [width * (0.36 + 0.28 * i), height / 2]]));
    others.forEach((node, i) => {
      const angle = (2 * Math.PI * (i + 0.5)) / others.length;
      places.set(node, [width / 2 + width * 0.44 * Math.cos(angle), height / 2 + height * 0.43 * Math.sin(angle)]);
    });
    return places;
  }

  function arc([tail, head, side, left, right], places, names) {
    const [colour, thick] = SIDES[side];
    const [[x, y], [u, v]] = [places.get(tail), places.get(head)];
    // Arcs of both directions bend to two sides, and a loop goes around beside its node.
    const bent = `Q${(x + u) / 2 + (v - y) * 0.12} ${(y + v) / 2 - (u - x) * 0.12} ${u} ${v}`;
    const loop = `M${x - 5} ${y}C${x - 30} ${y - 45} ${x + 30} ${y - 45} ${x + 5} ${y}`;
    const d = tail === head ? loop : `M${x} ${y}${bent}`;
    const style = { stroke: `var(--${colour})`, 'stroke-width': thick, fill: 'none' };
    style['marker-end'] = `url(#to-${colour})`;
    if (side === 'right') style['stroke-dasharray'] = '7 5';
    const told = `from ${tail} to ${head}: ${names[0]} ${left}; ${names[1]} ${right}`;
    return draw('path', { d, ...style }, draw('title', {}, told));
  }

  function node([name, [x, y]], pair, width) {
    const fill = pair.includes(name) ? 'var(--back)' : 'var(--card)';
    const room = Math.max(22, name.length * 8 + 8);
    const middle = Math.max(room / 2 + 1, Math.min(width - room / 2 - 1, x));
    const shape = { x: middle - room / 2, y: y - 11, width: room, height: 22, rx: 11, fill, stroke: 'var(--soft)' };
    return [draw('rect', shape), draw('text', { x: middle, y: y + 4, 'text-anchor': 'middle' }, name)];
  }

  /** The arcs around a pair in files of these names. */
  function around({ pair, arcs, more }, names) {
    const count = (side) => arcs.filter((it) => it[2] === side).length;
    const words = { same: 'in both', left: `only ${names[0]}`, right: `only ${names[1]}`, differs: 'different' };
    const said = Object.keys(SIDES).map((side) => `${count(side)} ${words[side]}`).join(', ');
    const keys = Object.entries(SIDES).map(([side, [colour]]) =>
      key(colour, side === 'right', `${words[side]}: ${count(side)}`));
    const others = [...new Set(arcs.flatMap(([tail, head]) => [tail, head]))].filter((it) => !pair.includes(it));
    const height = others.length < 3 ? HEIGHT / 2 : HEIGHT;
    const drawn = figure((width) => {
      const places = placed(pair, others, width, height);
      const markers = Object.values(SIDES).map(([it]) => draw('marker', {
        id: `to-${it}`, viewBox: '0 0 8 8', refX: 17, refY: 4, markerWidth: 7, markerHeight: 7, orient: 'auto',
        markerUnits: 'userSpaceOnUse',
      }, draw('path', { d: 'M0 0L8 4L0 8z', fill: `var(--${it})` })));
      const told = `Pairs with arcs around the pair from ${pair[0]} to ${pair[1]}: ${said}.`;
      return [make('figcaption', { class: 'row' }, make('b', {}, 'Arcs around the pair'), ...keys),
        picture(width, height, told, draw('defs', {}, ...markers),
          ...[...arcs].reverse().map((it) => arc(it, places, names)),
          ...[...places].flatMap((it) => node(it, pair, width)))];
    });
    return more ? [drawn, make('p', { class: 'soft' }, `${grouped(more)} more pairs are not drawn.`)] : [drawn];
  }

  /** A table of pairs that differ: [tail, head, arcs, arcs], where arcs are words. */
  function pairs(title, rows, names) {
    const cell = (arcs) => (arcs.length ? arcs.flatMap((it, i) => (i ? [make('br', {}), it] : [it])) : 'none');
    return table(title, ['Pair', ...names],
      rows.map(([tail, head, ...sides]) => [`${tail} to ${head}`, ...sides.map(cell)]));
  }

  return { across, around, costAt, costs, draw, figure, grouped, make, pairs, plot, upwards };
})();
