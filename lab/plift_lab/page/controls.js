// Controls, and what is told beside the picture.

const data = JSON.parse(document.getElementById('data').textContent);
const NAMES = ['accepted', 'rejected', 'unknown'];
const byId = (id) => document.getElementById(id);
const parameters = data.parameters.map((one) => ({
  ...one, from: toNumber(readFraction(one.low)), to: toNumber(readFraction(one.high)) }));
const tree = new Tree(data.tree, Math.max(parameters.length, 1));
const plot = new Plot(byId('picture'), byId('cursor'), tree, parameters);
let kept = null;  // a leaf that was chosen stays told
let due = false;
const byTouch = window.matchMedia('(pointer: coarse)');
const MOST_CHOICES = 500;

// Values and schedulers stand in the order of the leaves that have one.
const places = new Int32Array(tree.count), picks = new Int32Array(tree.count);
{
  let decided = 0, rejected = 0;
  for (let node = 0; node < tree.kind.length; node++) {
    const kind = tree.kind[node];
    if (kind === ACCEPT || kind === REJECT) places[tree.leaf[node]] = decided++;
    if (kind === REJECT) picks[tree.leaf[node]] = rejected++;
  }
}

// Inside a large enough rejected leaf of a decision process stands the number of its scheduler.
plot.label = (node) => data.isProcess && tree.kind[node] === REJECT ? `${data.picks[picks[tree.leaf[node]]]}` : '';

function element(name, text, properties = {}) {
  const made = Object.assign(document.createElement(name), properties);
  if (text !== undefined) made.textContent = text;
  return made;
}

// Fills a table; a cell is a text, or a text with what is told below it. Columns may be of a class.
function rows(table, head, body, classes = []) {
  const line = (cells, kind) => {
    const row = element('tr');
    cells.forEach((cell, place) => {
      const [text, below] = Array.isArray(cell) ? cell : [cell];
      const made = element(kind, text, { className: kind === 'td' && classes[place] || '' });
      if (below) made.append(element('small', below));
      row.append(made);
    });
    return row;
  };
  table.replaceChildren(line(head, 'th'), ...body.map((cells) => line(cells, 'td')));
}

// Whole where it is, else with two digits, the even one of two that are as near.
function percent(share) {
  const exact = 10000 * share, near = Math.round(exact) - (exact % 2 === 0.5 ? 1 : 0);
  const text = exact % 100 === 0 ? `${exact / 100}` : near === 0 ? '< 0.01' : near === 10000 ? '> 99.99' : (near / 100).toFixed(2);
  return text + '\u00a0%';
}

function redraw() {
  if (due) return;
  due = true;
  requestAnimationFrame(() => {
    due = false;
    const { seen, counts } = plot.draw(), whole = seen[0] + seen[1] + seen[2];
    rows(byId('shares'), ['', 'leaves', 'of the region', 'of the picture'], NAMES.map((name, kind) => [
      name, data.counts[kind].toLocaleString('en'), [data.shares[kind].percent, data.shares[kind].exact],
      [percent(whole ? seen[kind] / whole : 0), `${counts[kind].toLocaleString('en')} seen`]]));
    document.documentElement.dataset.drawn = Math.round(performance.now());
  });
}

function interval(axis, low, high) {
  const { name, low: from, high: to } = parameters[axis], ends = [between(from, to, low), between(from, to, high)];
  const [below, above] = ends.map(toNumber), size = Math.max(Math.abs(below), Math.abs(above)) / (above - below);
  const digits = Math.min(17, Math.max(9, Math.ceil(Math.log10(size)) + 3));  // as many as tell both ends apart
  return [name, `${decimal(below, digits)} to ${decimal(above, digits)}`, ends.map(exactText).join(' to ')];
}

// What is known of a leaf, as a table and a sentence.
function tell(leaf) {
  const card = byId('leaf');
  if (!leaf) { card.textContent = byTouch.matches ? 'Tap the picture.' : 'Point at the picture.'; byId('leaf-title').textContent = 'Leaf'; return; }
  byId('leaf-title').textContent = `Leaf ${leaf.number}: ${NAMES[leaf.kind]}${kept ? ' (kept)' : ''}`;
  card.replaceChildren();
  if (leaf.kind === UNKNOWN) {
    card.append(element('p', 'No certificate of either kind was found for all of it at this precision and depth.'));
  } else {
    const value = fraction(BigInt(data.values[places[leaf.number]]) * BigInt(data.unit), 1n << BigInt(data.precision));
    const number = exactText(value) + (value[1] === 1n ? '' : ` (about ${decimal(toNumber(value), 9)})`);
    const bits = data.precisions ? ` Its certificate has ${data.precisions[places[leaf.number]]} bits.` : '';
    card.append(element('p', data.says[leaf.kind].replace('@', () => number) + bits));
  }
  if (parameters.length) {
    const table = element('table'), sides = parameters.map((_, axis) => interval(axis, leaf.low[axis], leaf.high[axis]));
    rows(table, ['', 'about', 'exactly'], sides, ['name', 'about', 'exact']);
    card.append(table);
  }
  card.append(element('p', `Depth ${leaf.depth}, ${percent(2 ** -leaf.depth)} of the region.`));
  if (leaf.kind === REJECT && data.isProcess) tellScheduler(card, data.picks[picks[leaf.number]]);
}

// The choices of the states that have one. Where steps count they are those with all steps left.
function tellScheduler(card, pick) {
  if (!data.schedulers) {
    card.append(element('p', `Scheduler ${pick} (too long for this page: leaves --json tells it).`));
    return;
  }
  const parts = data.schedulers[pick].split('; '), words = parts[parts.length - 1].split(' ');
  const choices = parts.length > 1 || data.hasSteps ? words.slice(1) : words;
  const made = data.choosing.filter(([state]) => choices[state] !== '-');
  const steps = parts.length > 1 ? ` with ${parts.length} steps left (leaves --json tells the others)` : '';
  card.append(element('p', `Scheduler ${pick}${steps}:`));
  const chosen = made.slice(0, MOST_CHOICES).map(([state, labels, actions]) =>
    [labels ? `${state} ${labels}` : `${state}`, actions[Number(choices[state])]]);
  const table = element('table');
  rows(table, ['in state', 'choice'], chosen, ['name', 'name']);
  card.append(table);
  if (made.length > MOST_CHOICES) card.append(element('p', `and ${made.length - MOST_CHOICES} other states.`));
}

function mark(leaf) {
  plot.marked = leaf;
  plot.drawMark();
  tell(leaf);
}

function place(event) {
  const frame = byId('picture').getBoundingClientRect();
  return [event.clientX - frame.left, event.clientY - frame.top];
}

function parts(event) {
  const [x, y] = place(event), { left, top, width, height } = plot.area;
  return [(x - left) / width, 1 - (y - top) / height];
}

// From the marked leaf to the one behind its side.
function step(name, sign) {
  if (plot[name] < 0) return;
  const from = plot.marked, axis = plot[name];
  const point = Float64Array.from(plot.point);
  for (const other of ['x', 'y']) {
    const along = plot[other], [low, high] = plot.view[other];
    if (along >= 0) point[along] = from ? (from.low[along] + from.high[along]) / 2 : (low + high) / 2;
  }
  if (from) point[axis] = sign > 0 ? from.high[axis] : from.low[axis] - 0.5;
  if (point[axis] < 0 || point[axis] >= UNIT) return;
  const leaf = tree.find(point);
  kept = kept ? leaf : null;
  plot.reveal(leaf);
  mark(leaf);
  redraw();
}

const KEYS = {
  '+': () => plot.zoom(0.5), '=': () => plot.zoom(0.5), '-': () => plot.zoom(2), 0: () => plot.whole(),
  Home: () => plot.whole(),
};
const ARROWS = { ArrowLeft: ['x', -1], ArrowRight: ['x', 1], ArrowDown: ['y', -1], ArrowUp: ['y', 1] };

function onKey(event) {
  if (event.ctrlKey || event.metaKey || event.altKey) return;
  const arrow = ARROWS[event.key];
  if (arrow && event.shiftKey) plot.pan(arrow[0], arrow[1] / 4);
  else if (arrow) step(...arrow);
  else if (KEYS[event.key]) KEYS[event.key]();
  else if (event.key === 'Enter') { kept = plot.marked; tell(kept); }
  else if (event.key === 'Escape') { kept = null; mark(null); }
  else return;
  event.preventDefault();
  redraw();
}

// Two fingers: how far they are from each other, and the place between them.
function pinch(fingers) {
  const [one, other] = [...fingers.values()];
  return { apart: Math.max(20, Math.hypot(one[0] - other[0], one[1] - other[1])),
           at: [(one[0] + other[0]) / 2, (one[1] + other[1]) / 2] };
}

function onPointers(canvas) {
  let held = null, isTapped = false;
  const fingers = new Map();
  canvas.addEventListener('pointerdown', (event) => {
    held = { at: place(event), moved: false };
    canvas.setPointerCapture(event.pointerId);
    fingers.set(event.pointerId, place(event));
  });
  canvas.addEventListener('pointermove', (event) => {
    const at = place(event);
    if (fingers.size === 2 && fingers.has(event.pointerId)) {
      const before = pinch(fingers);
      fingers.set(event.pointerId, at);
      const now = pinch(fingers), { left, top, width, height } = plot.area;
      plot.zoom(before.apart / now.apart, (now.at[0] - left) / width, 1 - (now.at[1] - top) / height);
      plot.pan('x', (before.at[0] - now.at[0]) / width);
      plot.pan('y', (now.at[1] - before.at[1]) / height);
      held = null;
      redraw();
    } else if (held && (held.moved || Math.hypot(at[0] - held.at[0], at[1] - held.at[1]) > 4)) {
      plot.pan('x', (held.at[0] - at[0]) / plot.area.width);
      plot.pan('y', (at[1] - held.at[1]) / plot.area.height);
      held = { at, moved: true };
      redraw();
    } else if (!kept) {
      mark(plot.leafAt(...at));
    }
  });
  canvas.addEventListener('pointerup', (event) => {
    fingers.delete(event.pointerId);
    if (held && !held.moved) {
      const leaf = plot.leafAt(...place(event));
      kept = kept && leaf && leaf.node === kept.node ? null : leaf;
      mark(leaf);
      isTapped = event.pointerType === 'touch' && !!kept;
    }
    held = null;
  });
  // What is told of a leaf may lie below the screen. The click is the last that comes of a tap, so nothing else is hit.
  canvas.addEventListener('click', () => {
    if (isTapped) byId('leaf').firstElementChild.scrollIntoView({ block: 'nearest' });
    isTapped = false;
  });
  canvas.addEventListener('pointercancel', (event) => { held = null; fingers.delete(event.pointerId); });
  canvas.addEventListener('pointerleave', () => { if (!kept && document.activeElement !== canvas) mark(null); });
  canvas.addEventListener('wheel', (event) => {
    event.preventDefault();
    plot.zoom(Math.exp(Math.max(-1, Math.min(1, event.deltaY / 300))), ...parts(event));
    redraw();
  }, { passive: false });
}

// Choice of the axes, and a slider for each other parameter that a row depends on.
function buildAxes() {
  const card = byId('axes'), live = data.live;
  card.replaceChildren();
  if (live.length > 2) {
    for (const name of ['x', 'y']) {
      const label = element('label', name === 'x' ? 'From left to right ' : 'From below up ');
      const choice = element('select');
      for (const axis of live) {
        choice.append(element('option', parameters[axis].name, { value: axis, selected: axis === plot[name] }));
      }
      choice.addEventListener('change', () => {
        const chosen = Number(choice.value), other = name === 'x' ? plot.y : plot.x;
        const rest = chosen === other ? plot[name] : other;
        plot.setAxes(name === 'x' ? chosen : rest, name === 'x' ? rest : chosen);
        kept = null;
        mark(null);
        buildAxes();
        redraw();
      });
      label.append(choice);
      card.append(label);
    }
  }
  for (const axis of live) {
    if (axis === plot.x || axis === plot.y) continue;
    const label = element('label', '', { className: 'slider' }), shown = element('output');
    const slider = element('input', undefined,
      { type: 'range', min: 0, max: UNIT, step: UNIT / 256, value: plot.point[axis] });
    const update = () => { shown.textContent = decimal(plot.value(axis, plot.point[axis]), 6); };
    slider.addEventListener('input', () => {
      plot.point[axis] = Number(slider.value);
      byId('leaf').style.minHeight = `${byId('leaf').offsetHeight}px`;  // so that the slider stays where it is
      kept = null;
      mark(null);
      update();
      redraw();
    });
    slider.addEventListener('change', () => { byId('leaf').style.minHeight = ''; });
    update();
    label.append(element('span', parameters[axis].name), shown, slider);
    card.append(label);
  }
}

function buildFacts() {
  const list = byId('facts');
  for (const [name, text] of data.facts) {
    const told = element('dd');
    text.split(/(?<=,)/).forEach((part) => told.append(part, element('wbr')));  // a region's lines end behind a comma
    list.append(element('dt', name), told);
  }
  const shown = (count) => count.toLocaleString('en');
  rows(byId('depths'), ['depth', ...NAMES], tree.depths().map((counts, depth) => [depth, ...counts.map(shown)]));
}

function buildLegend() {
  const list = byId('legend'), ratio = window.devicePixelRatio || 1;
  list.replaceChildren();
  KINDS.forEach((_, kind) => {
    const item = element('li'), sample = element('canvas', undefined, { width: 34 * ratio, height: 18 * ratio });
    sample.setAttribute('aria-hidden', 'true');
    const context = sample.getContext('2d');
    context.fillStyle = plot.fill(context, kind, ratio, plot.color);
    context.fillRect(0, 0, sample.width, sample.height);
    const note = kind === REJECT && data.isProcess && data.counts[kind] ? ' (inside: the number of the scheduler)' : '';
    item.append(sample, element('span', `${NAMES[kind]}, ${data.shares[kind].percent}${note}`));
    list.append(item);
  });
}

const THEMES = ['system', 'dark', 'light'];
const system = window.matchMedia('(prefers-color-scheme: dark)');
let theme = THEMES.includes(location.hash.slice(1)) ? location.hash.slice(1) : 'system';

function showTheme() {
  document.documentElement.dataset.theme = theme === 'system' ? (system.matches ? 'dark' : 'light') : theme;
  byId('theme').textContent = 'Theme: ' + theme;
  buildLegend();
  redraw();
}

function savePicture() {
  const made = element('canvas', undefined, { width: plot.canvas.width, height: plot.canvas.height });
  const context = made.getContext('2d');
  context.fillStyle = plot.color('ground');
  context.fillRect(0, 0, made.width, made.height);
  context.drawImage(plot.canvas, 0, 0);
  const link = element('a', undefined, { href: made.toDataURL('image/png'), download: 'region.png' });
  link.click();
}

function start() {
  plot.setAxes(data.axes[0], data.axes[1]);
  buildAxes();
  buildFacts();
  tell(null);
  byId('picture').addEventListener('keydown', onKey);
  onPointers(byId('picture'));
  const does = (id, act) => byId(id).addEventListener('click', () => { act(); redraw(); });
  does('zoom-in', () => plot.zoom(0.5));
  does('zoom-out', () => plot.zoom(2));
  does('reset', () => plot.whole());
  does('save', savePicture);
  does('theme', () => { theme = THEMES[(THEMES.indexOf(theme) + 1) % THEMES.length]; showTheme(); });
  system.addEventListener('change', showTheme);
  window.addEventListener('resize', redraw);
  showTheme();
}

start();
