// Nets on a canvas, painted from the back to the front; they are turned by the mouse, a finger or the keyboard. A net
// is what page.py writes as a card; where it `isWoven`, its kinds are copies, and edges have their colours too. It may
// have `atoms` around it. The pages of net_tool draw and net_tool desk share this script.

export const LIGHT = { paper: '#ffffff', outline: '#1b1f24', edge: '#5b6672', leaving: '#a3acb5', rim: '#20262c', lit: '#ffb000' };
export const DARK = { paper: '#15191e', outline: '#e8ebee', edge: '#98a4b0', leaving: '#55606b', rim: '#c3cbd3', lit: '#ffb000' };
const MIST = 0.72;        // how far the colours behind are from those in front, on the way to that of the paper
const LEVELS = 24;        // of mist
const PALE = 0.8;         // how far what is not lit is from its colour, where something is
const MANY_PARTS = 1500;  // of which a sketch is painted while they are turned
const REST = 160;         // milliseconds after which all is painted again
const STEP = Math.PI / 18;  // that an arrow key turns
const NO_ATOM = -2;       // stands for the vertex of what is of the net
const FAR = 4.5;          // how far the eye is, in reaches
const MOVES = { ArrowLeft: [-STEP, 0], ArrowRight: [STEP, 0], ArrowUp: [0, -STEP], ArrowDown: [0, STEP] };
const FACTORS = { '+': 1.2, '=': 1.2, '-': 1 / 1.2 };

const channels = colour => [1, 3, 5].map(k => parseInt(colour.slice(k, k + 2), 16));
const hexadecimal = parts => `#${parts.map(x => Math.round(x).toString(16).padStart(2, '0')).join('')}`;

// A colour with a share of another.
function mixed(colour, other, share) {
  const others = channels(other);
  return hexadecimal(channels(colour).map((x, k) => x * (1 - share) + others[k] * share));
}
const product = (one, other) => one.map(row => [0, 1, 2].map(k => row.reduce((sum, x, m) => sum + x * other[m][k], 0)));
const toward = (a, b, share) => a + (b - a) * share;
const between = (p, q, share) => ({ x: toward(p.x, q.x, share), y: toward(p.y, q.y, share), z: toward(p.z, q.z, share) });

// What a ball is painted with: its colour, and lighter and darker ones around it.
const lightsOf = (colour, paper, share) => [[0, mixed(colour, '#ffffff', 0.4)], [0.45, colour], [1, mixed(colour, '#000000', 0.28)]]
  .map(([at, one]) => [at, mixed(one, paper, share)]);

// Paints on a canvas. A ball of one colour is made once, and then copied.
class CanvasPaper {
  static balls = new Map();

  constructor(canvas) {
    Object.assign(this, { context: canvas.getContext('2d'), width: canvas.width, height: canvas.height });
  }

  clear(colour) {
    this.context.fillStyle = colour;
    this.context.fillRect(0, 0, this.width, this.height);
  }

  stroke(p, q, style, width, opacity = 1) {
    const { context } = this;
    if (opacity < 1) context.globalAlpha = opacity;
    context.beginPath();
    context.moveTo(p.x, p.y);
    context.lineTo(q.x, q.y);
    context.strokeStyle = style;
    context.lineWidth = width;
    context.stroke();
    if (opacity < 1) context.globalAlpha = 1;
  }

  // Lines of one colour, at once.
  strokes(pairs, style, width) {
    const { context } = this;
    context.beginPath();
    for (const [p, q] of pairs) {
      context.moveTo(p.x, p.y);
      context.lineTo(q.x, q.y);
    }
    context.strokeStyle = style;
    context.lineWidth = width;
    context.stroke();
  }

  ball(p, radius, look, opacity = 1) {
    const { context } = this, wide = radius * 1.06;
    if (opacity < 1) context.globalAlpha = opacity;
    context.drawImage(CanvasPaper.image(look, radius), p.x - wide, p.y - wide, 2 * wide, 2 * wide);
    if (opacity < 1) context.globalAlpha = 1;
  }

  // The picture of a ball, made for sizes up to the next power of two.
  static image(look, radius) {
    const size = 2 ** Math.ceil(Math.log2(Math.min(512, Math.max(8, 2 * radius))));
    const name = `${look.colour}${look.rim}${look.paper}${look.share}${look.hasDot}${size}`;
    let image = this.balls.get(name);
    if (!image) {
      if (this.balls.size > 2000) this.balls.clear();
      image = this.made(look, size);
      this.balls.set(name, image);
    }
    return image;
  }

  static made({ colour, rim, paper, share, hasDot }, size) {
    const canvas = new OffscreenCanvas(size, size), context = canvas.getContext('2d'), middle = size / 2, radius = middle / 1.06;
    const light = context.createRadialGradient(middle - radius * 0.3, middle - radius * 0.35, radius * 0.1, middle, middle, radius);
    for (const [at, one] of lightsOf(colour, paper, share)) light.addColorStop(at, one);
    const disc = (one, fill) => {
      context.beginPath();
      context.arc(middle, middle, one, 0, 7);
      context.fillStyle = fill;
      context.fill();
    };
    disc(radius, light);
    context.strokeStyle = mixed(rim, paper, share);
    context.lineWidth = Math.max(1, size / 40);
    context.stroke();
    if (hasDot) disc(radius * 0.4, paper);
    return canvas.transferToImageBitmap();  // which is copied faster than a canvas
  }
}

const tagged = (tag, content) => `<${tag}>${content}</${tag}>`;

// Writes the same as SVG.
class SvgPaper {
  constructor(size) {
    Object.assign(this, { width: size, height: size, parts: [], lights: new Map() });
  }

  clear(colour) {
    this.parts = [`<rect width="${this.width}" height="${this.height}" fill="${colour}"/>`];
  }

  stroke(p, q, style, width, opacity = 1) {
    const path = [p.x, p.y, q.x, q.y].map(x => x.toFixed(1));
    this.parts.push(`<path d="M${path[0]} ${path[1]}L${path[2]} ${path[3]}" stroke="${style}" stroke-width="${width.toFixed(2)}"` +
      `${opacity < 1 ? ` opacity="${opacity}"` : ''}/>`);
  }

  ball(p, radius, { colour, rim, paper, share, hasDot }, opacity = 1) {
    const name = `${colour} ${share}`;
    if (!this.lights.has(name)) this.lights.set(name, [`b${this.lights.size}`, lightsOf(colour, paper, share)]);
    const place = `cx="${p.x.toFixed(1)}" cy="${p.y.toFixed(1)}"`;
    this.parts.push(`<circle ${place} r="${radius.toFixed(1)}" fill="url(#${this.lights.get(name)[0]})" ` +
      `stroke="${mixed(rim, paper, share)}" stroke-width="${Math.max(0.6, radius / 20).toFixed(1)}"` +
      `${opacity < 1 ? ` opacity="${opacity}"` : ''}/>`);
    if (hasDot) this.parts.push(`<circle ${place} r="${(radius * 0.4).toFixed(1)}" fill="${paper}"/>`);
  }

  text(title) {
    const plain = title.replace(/[&<>]/g, sign => ({ '&': '&amp;', '<': '&lt;', '>': '&gt;' })[sign]);
    const lights = [...this.lights.values()].map(([name, stops]) => `<radialGradient id="${name}" cx=".35" cy=".32" r=".75">` +
      `${stops.map(([at, one]) => `<stop offset="${at}" stop-color="${one}"/>`).join('')}</radialGradient>`);
    return `<svg xmlns="http://www.w3.org/2000/svg" viewBox="0 0 ${this.width} ${this.height}" role="img">${tagged('title', plain)}` +
      `<defs>${lights.join('')}</defs><g fill="none" stroke-linecap="butt">${this.parts.join('')}</g></svg>\n`;
  }
}

// Where the way from p to q leaves the disc of a ball of p.
const rim = (p, q, radius) => radius ? between(p, q, Math.min(0.5, radius * p.grow / (Math.hypot(p.x - q.x, p.y - q.y) || 1))) : p;

// A line of a picture. Where it `hasHalo`, there is paper round it, which begins outside of the balls of its ends, so that it
// cuts none of them.
class Stick {
  constructor(picture, parts) {
    Object.assign(this, { picture, z: 0, vertex: NO_ATOM, hasHalo: false, opacity: 1, radii: () => [0, 0] }, parts);
  }

  depth() {
    const [p, q] = this.ends();
    return (p.z + q.z) / 2;
  }

  get style() {
    return this.picture.misty(this.colour(), this.picture.share(this.z, this.vertex));
  }

  trimmed(share) {
    const [p, q] = this.ends(), [one, other] = this.radii();
    return [rim(p, q, one * share), rim(q, p, other * share)];
  }

  paint(paper) {
    const { picture } = this, width = this.width();
    if (this.hasHalo) paper.stroke(...this.trimmed(1), picture.theme.paper, width + 5 * picture.pixel);
    paper.stroke(...this.trimmed(0.75), this.style, width * (1 - 0.3 * picture.level(this.z)), this.opacity);
  }

  sketch({ lines }) {
    const { style } = this;
    if (!lines.has(style)) lines.set(style, { ends: [], width: this.width() });
    lines.get(style).ends.push(this.ends());
  }
}

// A ball of a picture: a vertex or an atom.
class Ball {
  constructor(picture, parts) {
    Object.assign(this, { picture, z: 0, vertex: NO_ATOM, hasDot: false, opacity: 1 }, parts);
  }

  depth() {
    return this.point().z + 1e-4;
  }

  paint(paper) {
    const { picture, hasDot } = this, { theme } = picture, point = this.point();
    paper.ball(point, this.radius() * point.grow, { colour: this.colour(), rim: theme.rim, paper: theme.paper, hasDot,
      share: picture.share(this.z, this.vertex) }, this.opacity);
  }

  sketch({ balls }) {
    balls.push(this);
  }
}

// A net as it is seen in a frame of three rows: to the right, up, towards the reader.
export class Picture {
  constructor(canvas, net, palette, theme = LIGHT) {
    Object.assign(this, { canvas, net, palette, theme, lit: -1 });
    this.parts = [...this.sticks(), ...this.balls()];
    this.colours = new Map();
    this.reset();
  }

  reset() {
    this.frame = this.net.frame.map(row => [...row]);
    this.zoom = 1;
  }

  turn(across, down) {
    const [c, s, d, t] = [Math.cos(across), Math.sin(across), Math.cos(down), Math.sin(down)];
    this.frame = product([[1, 0, 0], [0, d, -t], [0, t, d]], product([[c, 0, s], [0, 1, 0], [-s, 0, c]], this.frame));
  }

  enlarge(factor) {
    this.zoom = Math.min(8, Math.max(0.2, this.zoom * factor));
  }

  paint() {
    this.paintOn(new CanvasPaper(this.canvas));
  }

  // What is seen, as SVG.
  svg(title) {
    const paper = new SvgPaper(600);
    this.paintOn(paper);
    return paper.text(title);
  }

  paintOn(paper) {
    this.measure(paper);
    paper.clear(this.theme.paper);
    for (const part of this.parts) part.z = part.depth();
    this.parts.sort((one, other) => one.z - other.z);
    for (const part of this.parts) part.paint(paper);
  }

  // The same of a net of many parts while it is turned: without paper round edges, and sorted by levels alone.
  paintMoving() {
    if (this.parts.length < MANY_PARTS) {
      this.paint();
      return;
    }
    const paper = new CanvasPaper(this.canvas), layers = Array.from({ length: LEVELS + 1 }, () => ({ lines: new Map(), balls: [] }));
    this.measure(paper);
    paper.clear(this.theme.paper);
    for (const part of this.parts) {
      part.z = part.depth();
      part.sketch(layers[Math.round(this.level(part.z) * LEVELS)]);
    }
    for (const { lines, balls } of layers.reverse()) {
      lines.forEach(({ ends, width }, style) => paper.strokes(ends, style, width));
      balls.forEach(part => part.paint(paper));
    }
    clearTimeout(this.rest);
    this.rest = setTimeout(() => this.paint(), REST);
  }

  // All places: of vertices, of the ends of edges that leave, of the outline, of atoms.
  get places() {
    const { net } = this;
    return [...net.vertices, ...net.leaving.map(([, ...place]) => place), ...net.outline.flat(), ...(net.atoms?.places || [])];
  }

  // The scale, and the points of the vertices and atoms.
  measure({ width, height }) {
    const { net } = this, side = Math.min(width, height), atoms = net.atoms?.places || [];
    Object.assign(this, { middle: [width / 2, height / 2], pixel: side / 900 });
    const largest = Math.max(net.ball, ...(net.atoms?.radii || []));
    this.reach ||= Math.max(0.1, 1.3 * largest + this.places.reduce((most, place) => Math.max(most, Math.hypot(...place)), 0));
    this.scale = 0.47 * side / this.reach * this.zoom;
    this.ball = net.ball * this.scale;
    this.width = Math.max(2 * this.pixel, this.ball * 0.5);
    this.points = net.vertices.map(place => this.seen(place));
    this.ends = net.leaving.map(([, ...place]) => this.seen(place));
    this.spots = atoms.map(place => this.seen(place));
    this.corners = net.outline.map(([from, to]) => [0, 1, 2, 3, 4, 5, 6].map(step =>
      this.seen(from.map((x, m) => toward(x, to[m], step / 6)))));
    const heights = [...this.points, ...this.spots].map(point => point.z);
    this.nearest = heights.reduce((one, other) => Math.max(one, other), -Infinity);
    this.depths = Math.max(this.nearest - heights.reduce((one, other) => Math.min(one, other), Infinity), 0.5 * this.reach);
  }

  // Where a place is on the canvas, how near it is, and how much larger than in the middle it looks.
  seen([a, b, c]) {
    const [right, up, front] = this.frame, z = front[0] * a + front[1] * b + front[2] * c;
    const grow = FAR * this.reach / (FAR * this.reach - z), size = this.scale * grow;
    return { x: this.middle[0] + (right[0] * a + right[1] * b + right[2] * c) * size,
      y: this.middle[1] - (up[0] * a + up[1] * b + up[2] * c) * size, z, grow };
  }

  // 0 in front, 1 behind, in so many levels.
  level(z) {
    return Math.round(Math.min(1, Math.max(0, (this.nearest - z) / this.depths)) * LEVELS) / LEVELS;
  }

  // A colour, nearer to that of the paper as it lies deeper.
  misty(colour, share) {
    const name = `${colour} ${share}`;
    if (!this.colours.has(name)) this.colours.set(name, mixed(colour, this.theme.paper, share));
    return this.colours.get(name);
  }

  // How far from its colour something at this depth is, which belongs to a vertex.
  share(z, vertex) {
    const isPale = this.lit >= 0 && vertex !== this.lit && vertex !== NO_ATOM;
    return Math.max(MIST * this.level(z), isPale ? PALE : 0);
  }

  colour(kind) {
    return this.palette[kind % this.palette.length];
  }

  // All lines: edges, those that leave, the outline of the cell, and each bond in two halves.
  sticks() {
    const { net } = this, ofNet = { hasHalo: !net.atoms, opacity: net.atoms ? 0.6 : 1 };
    const colourOf = i => net.isWoven ? this.colour(net.kinds[i]) : this.theme.edge;
    const edges = net.edges.map(([i, j]) => new Stick(this, { ...ofNet, ends: () => [this.points[i], this.points[j]],
      colour: () => colourOf(i), width: () => this.width, radii: () => [this.ball, this.ball] }));
    const leaving = net.leaving.map(([i], k) => new Stick(this, { ...ofNet, ends: () => [this.points[i], this.ends[k]],
      colour: () => this.theme.leaving, width: () => 0.8 * this.width, radii: () => [this.ball, 0] }));
    const steps = [0, 1, 2, 3, 4, 5];
    const outline = net.outline.flatMap((_, k) => steps.map(step => new Stick(this, {
      ends: () => [this.corners[k][step], this.corners[k][step + 1]], colour: () => this.theme.outline, width: () => 2 * this.pixel })));
    const bonds = (net.atoms?.bonds || []).flatMap(([i, j]) => [[i, j], [j, i]].map(pair => this.halfBond(...pair)));
    return [...edges, ...leaving, ...outline, ...bonds];
  }

  // The half of a bond that belongs to its first atom.
  halfBond(i, j) {
    const { atoms } = this.net;
    return new Stick(this, { ends: () => [this.spots[i], between(this.spots[i], this.spots[j], 0.5)], vertex: atoms.vertex[i],
      colour: () => this.atomColour(i), width: () => Math.max(1.5 * this.pixel, 0.09 * this.scale),
      radii: () => [atoms.radii[i] * this.scale, 0] });
  }

  atomColour(k) {
    const { atoms } = this.net;
    return this.lit >= 0 && atoms.vertex[k] === this.lit ? this.theme.lit : atoms.colours[k];
  }

  balls() {
    const { net } = this, places = net.atoms?.places || [];
    const vertices = net.vertices.map((_, k) => new Ball(this, { point: () => this.points[k], radius: () => this.ball,
      colour: () => this.colour(net.kinds[k]), hasDot: net.kinds[k] >= this.palette.length, opacity: net.atoms ? 0.75 : 1 }));
    const atoms = places.map((_, k) => new Ball(this, { point: () => this.spots[k], radius: () => net.atoms.radii[k] * this.scale,
      colour: () => this.atomColour(k), vertex: net.atoms.vertex[k] }));
    return [...vertices, ...atoms];
  }

  // The vertex whose ball, or one of whose atoms, is seen at a point of the canvas, or -1.
  vertexAt(x, y) {
    const { net } = this, near = (p, radius) => Math.hypot(p.x - x, p.y - y) <= Math.max(radius, 6 * this.pixel);
    const found = this.points.map((p, k) => ({ p, radius: this.ball, vertex: net.atoms ? net.atoms.ofPoint[k] : k }));
    this.spots.forEach((p, k) => found.push({ p, radius: net.atoms.radii[k] * this.scale, vertex: net.atoms.vertex[k] }));
    const hit = found.filter(({ p, radius }) => near(p, radius * p.grow)).sort((one, other) => other.p.z - one.p.z)[0];
    return hit ? hit.vertex : -1;
  }
}

// Lets a canvas be turned: by dragging, by the arrow keys; its size by the wheel where wanted, and by + and -. The
// picture that is on it is asked for each time.
export function makeTurnable(canvas, pictureOf, hasWheel = true) {
  let held = null;
  const change = work => {
    const picture = pictureOf();
    if (!picture) return;
    work(picture);
    picture.paintMoving();
  };
  canvas.addEventListener('pointerdown', event => {
    held = event;
    canvas.setPointerCapture(event.pointerId);
  });
  const release = () => { held = null; };
  canvas.addEventListener('pointerup', release);
  canvas.addEventListener('pointercancel', release);
  canvas.addEventListener('pointermove', event => {
    if (!held) return;
    change(picture => picture.turn((event.clientX - held.clientX) / 180, (event.clientY - held.clientY) / 180));
    held = event;
  });
  canvas.addEventListener('keydown', event => {
    const work = keyWork(event);
    if (!work) return;
    event.preventDefault();
    change(work);
  });
  if (!hasWheel) return;
  canvas.addEventListener('wheel', event => {
    event.preventDefault();
    change(picture => picture.enlarge(Math.exp(-event.deltaY / 600)));
  }, { passive: false });
}

// What a key does to a picture, or nothing.
function keyWork(event) {
  if (event.ctrlKey || event.altKey || event.metaKey) return null;
  if (MOVES[event.key]) return picture => picture.turn(...MOVES[event.key]);
  if (FACTORS[event.key]) return picture => picture.enlarge(FACTORS[event.key]);
  return event.key === 'Home' ? picture => picture.reset() : null;
}
