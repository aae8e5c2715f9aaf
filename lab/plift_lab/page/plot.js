// The picture: leaves over one or two parameters, with axes.

class Plot {
  constructor(canvas, overlay, tree, parameters) {
    Object.assign(this, { canvas, overlay, tree, parameters });
    this.point = new Float64Array(Math.max(parameters.length, 1)).fill(UNIT / 2);
    this.x = this.y = -1;  // parameters on the axes
    this.marked = null;    // a leaf with an outline
    this.label = () => '';  // what stands inside a leaf
    this.whole();
  }

  whole() { this.view = { x: [0, UNIT], y: [0, UNIT] }; }

  setAxes(x, y) { this.x = x; this.y = y; this.whole(); }

  get color() {
    const style = getComputedStyle(document.documentElement);
    return (name) => style.getPropertyValue('--' + name).trim();
  }

  // A kind is plain, has stripes or has dots, so kinds are told apart in grey too: what is repeated to fill a leaf.
  tile(kind, ratio, color) {
    const name = KINDS[kind], size = Math.round((kind === REJECT ? 8 : 7) * ratio);
    const paint = document.createElement('canvas').getContext('2d', { willReadFrequently: true });
    paint.canvas.width = paint.canvas.height = size;
    paint.fillStyle = color(name);
    paint.fillRect(0, 0, size, size);
    if (kind === ACCEPT) return paint;
    paint.fillStyle = paint.strokeStyle = color(name + '-mark');
    if (kind === REJECT) {
      paint.lineWidth = 1.5 * ratio;
      paint.beginPath();
      for (const start of [-size, 0, size]) { paint.moveTo(start - 2, size + 2); paint.lineTo(start + size + 2, -2); }
      paint.stroke();
    } else {
      paint.beginPath();
      paint.arc(size / 2, size / 2, 1.1 * ratio, 0, 2 * Math.PI);
      paint.fill();
    }
    return paint;
  }

  fill(context, kind, ratio, color) {
    return context.createPattern(this.tile(kind, ratio, color).canvas, 'repeat');
  }

  value(axis, units) {
    const { from, to } = this.parameters[axis];
    return from + (to - from) * units / UNIT;
  }

  // Ticks at round values in the window of an axis, in one notation.
  ticks(axis, range, most) {
    const from = this.value(axis, range[0]), to = this.value(axis, range[1]);
    const rough = (to - from) / Math.max(most, 1), power = 10 ** Math.floor(Math.log10(rough));
    const step = [1, 2, 5, 10].map((factor) => factor * power).find((size) => size >= rough) || 10 * power;
    const values = [];
    for (let place = Math.ceil(from / step - 1e-9); place * step <= to + step * 1e-9 && values.length < 50; place++) {
      values.push(place * step);
    }
    const { from: least, to: greatest } = this.parameters[axis], inPowers = values.some(isFar);
    return values.map((value) => {
      const digits = Math.min(15, Math.max(1, Math.ceil(Math.log10(Math.abs(value) / step + 1) + 1)));
      return { units: (value - least) / (greatest - least) * UNIT, text: decimal(value, digits, inPowers) };
    });
  }

  // The margins beside the picture, and as many ticks below it as have room between each other.
  below(width, left, room) {
    const [from, to] = this.view.x;
    for (let most = Math.floor(width / 50); ; most--) {
      const ticks = this.x < 0 ? [] : this.ticks(this.x, this.view.x, most), half = Math.ceil(room(ticks) / 2) + 4;
      const margins = [Math.max(left, half), Math.max(16, half)], inner = width - margins[0] - margins[1];
      const apart = ticks.length < 2 ? Infinity : inner * (ticks[1].units - ticks[0].units) / (to - from);
      if (most <= 1 || apart >= room(ticks) + 20) return [ticks, ...margins];
    }
  }

  layout() {
    const width = Math.max(this.canvas.parentElement.clientWidth, 200), ratio = window.devicePixelRatio || 1;
    const context = this.canvas.getContext('2d');
    context.font = '13px system-ui, sans-serif';
    const room = (ticks) => Math.max(0, ...ticks.map((tick) => context.measureText(tick.text).width));
    const flat = this.y < 0;
    const height = flat ? 150 : Math.min(width * 0.86, Math.max(320, window.innerHeight - 210));
    const yTicks = flat ? [] : this.ticks(this.y, this.view.y, height / 60);
    const [xTicks, left, right] = this.below(width, flat ? 14 : Math.ceil(room(yTicks)) + 34, room);
    const top = 12, bottom = this.x < 0 ? 14 : 48;
    for (const canvas of [this.canvas, this.overlay]) {
      canvas.width = Math.round(width * ratio);
      canvas.height = Math.round(height * ratio);
      canvas.style.height = height + 'px';
    }
    this.area = { left, top, width: width - left - right, height: height - top - bottom, ratio };
    return { context, xTicks, yTicks };
  }

  // Pixels of the device. Both edges of a leaf are rounded, so neighbours share an edge and nothing shows between them.
  across(units) {
    const { left, width, ratio } = this.area, [from, to] = this.view.x;
    return Math.round((left + Math.min(1, Math.max(0, (units - from) / (to - from))) * width) * ratio);
  }

  up(units) {
    const { top, height, ratio } = this.area, [from, to] = this.view.y;
    return Math.round((top + (1 - Math.min(1, Math.max(0, (units - from) / (to - from)))) * height) * ratio);
  }

  box(low, high) {
    const x = this.x < 0 ? [0, UNIT] : [low[this.x], high[this.x]], y = this.y < 0 ? [0, UNIT] : [low[this.y], high[this.y]];
    return [this.across(x[0]), this.up(y[1]), this.across(x[1]), this.up(y[0])];
  }

  // What is shown of which parameters.
  ranges() {
    const ranges = {};
    if (this.x >= 0) ranges[this.x] = this.view.x;
    if (this.y >= 0) ranges[this.y] = this.view.y;
    return ranges;
  }

  // Draws all, and tells how much of the window each kind has and how many leaves are in it.
  draw() {
    const { context, xTicks, yTicks } = this.layout(), color = this.color, large = [], seen = [0, 0, 0], counts = [0, 0, 0];
    const image = context.createImageData(this.canvas.width, this.canvas.height);
    const pixels = new Uint32Array(image.data.buffer), tiles = this.words(color), least = 7 * this.area.ratio;
    this.tree.each(this.point, this.ranges(), (node, low, high) => {
      const kind = this.tree.kind[node], [x0, y0, x1, y1] = this.box(low, high);
      counts[kind] += 1;
      seen[kind] += this.part('x', low, high) * this.part('y', low, high);
      if (x1 - x0 >= least && y1 - y0 >= least) large.push([node, x0, y0, x1 - x0, y1 - y0]);
      else this.fillSmall(pixels, image.width, tiles[kind], [x0, y0, x1, y1]);
    });
    context.putImageData(image, 0, 0);
    this.drawLarge(context, large, color);
    this.drawAxes(context, xTicks, yTicks, color);
    this.drawMark();
    return { seen, counts };
  }

  // The tiles of the kinds as they stand in an image, in which leaves are drawn that are too small for a line.
  words(color) {
    return KINDS.map((_, kind) => {
      const paint = this.tile(kind, this.area.ratio, color), size = paint.canvas.width;
      return { size, words: new Uint32Array(paint.getImageData(0, 0, size, size).data.buffer) };
    });
  }

  fillSmall(pixels, width, { size, words }, [x0, y0, x1, y1]) {
    for (let y = y0; y < y1; y++) {
      const row = (y % size) * size;
      for (let x = x0; x < x1; x++) pixels[y * width + x] = words[row + x % size];
    }
  }

  drawLarge(context, leaves, color) {
    const fills = KINDS.map((_, kind) => this.fill(context, kind, this.area.ratio, color)), edge = color('edge');
    for (const [node, x, y, wide, tall] of leaves) {
      context.fillStyle = fills[this.tree.kind[node]];
      context.fillRect(x, y, wide, tall);
      context.lineWidth = 1;
      context.strokeStyle = edge;
      context.strokeRect(x + 0.5, y + 0.5, wide - 1, tall - 1);
      this.drawLabel(context, this.label(node), x, y, wide, tall, color);
    }
  }

  drawLabel(context, text, x, y, wide, tall, color) {
    const ratio = this.area.ratio, high = 16 * ratio, width = (10 + 8 * text.length) * ratio;
    if (!text || wide < width + 6 * ratio || tall < high + 6 * ratio) return;
    const left = Math.round(x + (wide - width) / 2), top = Math.round(y + (tall - high) / 2);
    context.fillStyle = color('card');
    context.fillRect(left, top, width, high);
    context.fillStyle = color('ink');
    context.font = `${12 * ratio}px system-ui, sans-serif`;
    context.textAlign = 'center';
    context.textBaseline = 'middle';
    context.fillText(text, left + width / 2, top + high / 2 + ratio);
  }

  // Which part of the window a leaf has on an axis.
  part(name, low, high) {
    const axis = this[name], [from, to] = this.view[name];
    return axis < 0 ? 1 : Math.max(0, Math.min(high[axis], to) - Math.max(low[axis], from)) / (to - from);
  }

  drawAxes(context, xTicks, yTicks, color) {
    const { left, top, width, height, ratio } = this.area;
    context.save();
    context.scale(ratio, ratio);
    context.strokeStyle = color('soft');
    context.fillStyle = color('ink');
    context.lineWidth = 1;
    context.strokeRect(left - 0.5, top - 0.5, width + 1, height + 1);
    context.font = '13px system-ui, sans-serif';
    context.textAlign = 'center';
    context.textBaseline = 'top';
    for (const { units, text } of xTicks) {
      const place = left + (units - this.view.x[0]) / (this.view.x[1] - this.view.x[0]) * width;
      context.fillRect(Math.round(place), top + height, 1, 5);
      context.fillText(text, place, top + height + 8);
    }
    if (this.x >= 0) context.fillText(this.parameters[this.x].name, left + width / 2, top + height + 28, width);
    context.textAlign = 'right';
    context.textBaseline = 'middle';
    for (const { units, text } of yTicks) {
      const place = top + (1 - (units - this.view.y[0]) / (this.view.y[1] - this.view.y[0])) * height;
      context.fillRect(left - 5, Math.round(place), 5, 1);
      context.fillText(text, left - 8, place);
    }
    if (this.y >= 0) {
      context.translate(12, top + height / 2);
      context.rotate(-Math.PI / 2);
      context.textAlign = 'center';
      context.fillText(this.parameters[this.y].name, 0, 0, height);
    }
    context.restore();
  }

  // An outline around the marked leaf, on a canvas of its own.
  drawMark() {
    const context = this.overlay.getContext('2d'), ratio = this.area.ratio;
    context.clearRect(0, 0, this.overlay.width, this.overlay.height);
    if (!this.marked) return;
    const [x0, y0, x1, y1] = this.box(this.marked.low, this.marked.high), least = 5 * ratio;
    const grow = (from, to) => Math.max(0, (least - (to - from)) / 2);
    const wide = grow(x0, x1), tall = grow(y0, y1);
    context.strokeStyle = this.color('cursor');
    context.lineWidth = 2 * ratio;
    context.strokeRect(x0 - wide, y0 - tall, x1 - x0 + 2 * wide, y1 - y0 + 2 * tall);
  }

  // The leaf at a place of the canvas, in pixels of the page; none outside.
  leafAt(across, down) {
    const { left, top, width, height } = this.area, x = (across - left) / width, y = 1 - (down - top) / height;
    if (x < 0 || x > 1 || y < 0 || y > 1) return null;
    const point = Float64Array.from(this.point);
    if (this.x >= 0) point[this.x] = this.view.x[0] + x * (this.view.x[1] - this.view.x[0]);
    if (this.y >= 0) point[this.y] = this.view.y[0] + y * (this.view.y[1] - this.view.y[0]);
    return this.tree.find(point);
  }

  // Zooms by a factor around a place, in parts of the window; to a 2^-20th of the region at most.
  zoom(factor, x = 0.5, y = 0.5) {
    for (const [name, place] of [['x', x], ['y', y]]) {
      if (this[name] < 0) continue;
      const [from, to] = this.view[name], size = Math.min(UNIT, Math.max(2, (to - from) * factor));
      this.shift(name, from + (to - from - size) * place, size);
    }
  }

  pan(name, part) {
    if (this[name] < 0) return;
    const [from, to] = this.view[name];
    this.shift(name, from + part * (to - from), to - from);
  }

  shift(name, from, size) {
    const start = Math.min(UNIT - size, Math.max(0, from));
    this.view[name] = [start, start + size];
  }

  // Moves the window so that a leaf's middle is inside.
  reveal(leaf) {
    for (const name of ['x', 'y']) {
      const axis = this[name];
      if (axis < 0) continue;
      const middle = (leaf.low[axis] + leaf.high[axis]) / 2, [from, to] = this.view[name];
      if (middle < from || middle > to) this.shift(name, middle - (to - from) / 2, to - from);
    }
  }
}
