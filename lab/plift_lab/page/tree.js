'use strict';
// The report's tree. Each parameter's interval is UNIT units long, and every split lies on a whole one.

const UNIT = 2 ** 20;
const KINDS = ['accept', 'reject', 'unknown'];
const ACCEPT = 0, REJECT = 1, UNKNOWN = 2;

class Tree {
  // text: in preorder a digit (in base 16) for a split on that parameter, or A, R, U for a leaf.
  constructor(text, parameters) {
    const size = text.length;
    this.axis = new Int8Array(size);    // of a split
    this.kind = new Int8Array(size);    // of a leaf, and -1
    this.upper = new Int32Array(size);  // the node of the upper half; the lower half's is the next one
    this.leaf = new Int32Array(size);   // its number
    this.count = 0;
    this.sides = parameters;
    const open = [];  // splits whose upper half is still to come
    for (let node = 0; node < size; node++) {
      const kind = 'ARU'.indexOf(text[node]);
      this.kind[node] = kind;
      if (kind < 0) {
        this.axis[node] = parseInt(text[node], 16);
        open.push(node);
      } else {
        this.leaf[node] = this.count++;
        if (open.length) this.upper[open.pop()] = node + 1;
      }
    }
  }

  // The leaf at a point, with its rectangle; on a shared side the upper one.
  find(point) {
    const low = new Float64Array(this.sides), high = new Float64Array(this.sides).fill(UNIT);
    let node = 0, depth = 0;
    while (this.kind[node] < 0) {
      const axis = this.axis[node], middle = (low[axis] + high[axis]) / 2;
      if (point[axis] < middle) { high[axis] = middle; node += 1; } else { low[axis] = middle; node = this.upper[node]; }
      depth += 1;
    }
    return { node, depth, low, high, kind: this.kind[node], number: this.leaf[node] };
  }

  // Calls show(node, low, high) for each leaf of a slice inside a window: `point` has the values of parameters that aren't
  // shown, `ranges` the shown ones as {axis: [low, high]}. The arrays that show gets are used again.
  each(point, ranges, show) {
    const low = new Float64Array(this.sides), high = new Float64Array(this.sides).fill(UNIT);
    const visit = (node) => {
      if (this.kind[node] >= 0) { show(node, low, high); return; }
      const axis = this.axis[node], middle = (low[axis] + high[axis]) / 2, shown = ranges[axis];
      const oldLow = low[axis], oldHigh = high[axis];
      if (shown ? shown[0] < middle : point[axis] < middle) {
        high[axis] = middle; visit(node + 1); high[axis] = oldHigh;
      }
      if (shown ? shown[1] > middle : point[axis] >= middle) {
        low[axis] = middle; visit(this.upper[node]); low[axis] = oldLow;
      }
    };
    visit(0);
  }

  // For each depth the numbers of leaves by kind.
  depths() {
    const counts = [], due = [0];
    for (let node = 0; node < this.kind.length; node++) {
      const depth = due.pop();
      if (this.kind[node] < 0) due.push(depth + 1, depth + 1);
      else (counts[depth] = counts[depth] || [0, 0, 0])[this.kind[node]] += 1;
    }
    return Array.from(counts, (row) => row || [0, 0, 0]);
  }
}

// Exact fractions, for what is told of a leaf.
function fraction(above, below) {
  let a = above < 0n ? -above : above, b = below;
  while (b) [a, b] = [b, a % b];
  return a ? [above / a, below / a] : [0n, 1n];
}

function readFraction(text) {
  const [above, below] = text.split('/');
  return [BigInt(above), BigInt(below || 1)];
}

// low + (high - low) * units / UNIT
function between(low, high, units) {
  const [a, b] = readFraction(low), [c, d] = readFraction(high), unit = BigInt(UNIT);
  return fraction(a * d * (unit - BigInt(units)) + c * b * BigInt(units), b * d * unit);
}

function exactText([above, below]) { return below === 1n ? `${above}` : `${above}/${below}`; }

function toNumber([above, below]) {
  const digits = Math.max(`${above}`.length, `${below}`.length) - 300;
  const scale = 10n ** BigInt(Math.max(digits, 0));  // so that both have room in a number
  return Number(above / scale) / Number(below / scale);
}

// Whether a number is read more easily with a power of ten.
function isFar(value) { return value !== 0 && (Math.abs(value) < 1e-4 || Math.abs(value) >= 1e7); }

function decimal(value, digits = 6, inPowers = isFar(value)) {
  if (value === 0) return '0';
  const text = inPowers ? value.toExponential(digits - 1).replace(/\.?0+e/, 'e') : value.toPrecision(digits);
  return text.includes('e') || !text.includes('.') ? text.replace('e+', 'e') : text.replace(/\.?0+$/, '');
}
