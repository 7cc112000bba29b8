"use strict";

// How many iterations are unpacked ahead of the one that is shown, how many are kept, and how many cells these have at most.
const AHEAD = 8;
const KEPT = 32;
const MOST_KEPT = 20e6;
// How wide an agent is drawn at least where there is room, how wide a cell at most, in pixels of the page.
const LEAST_DOT = 3;
const MOST_SIDE = 48;
// How many lines the tip has at most.
const MOST_TOLD = 10;
const PAPER = "#f4f4f4";
const INK = "#333333";

const byId = (id) => document.getElementById(id);

function element(name, properties = {}, ...children) {
  const made = Object.assign(document.createElement(name), properties);
  made.append(...children);
  return made;
}

/** Bytes from base64. */
function bytesOf(text) {
  const signs = atob(text);
  const bytes = new Uint8Array(signs.length);
  for (let place = 0; place < signs.length; place++) bytes[place] = signs.charCodeAt(place);
  return bytes;
}

/** What zlib has compressed. */
function inflated(bytes) {
  const stream = new Blob([bytes]).stream().pipeThrough(new DecompressionStream("deflate"));
  return new Response(stream).arrayBuffer();
}

/** The layers of an iteration: of each how many cells it has and how wide its columns are, then the columns. */
function layersOf(buffer, count) {
  const heads = new Int32Array(buffer, 0, 4 * count);
  let at = heads.byteLength;
  const column = (length, width) => {
    const found = width === 2 ? new Int16Array(buffer, at, length) : new Int32Array(buffer, at, length);
    at += Math.ceil((length * width) / 4) * 4;
    return found;
  };
  const layers = [];
  for (let head = 0; head < heads.length; head += 4) {
    const [length, ...widths] = heads.subarray(head, head + 4);
    const [x, y, colour] = widths.map((width) => column(length, width));
    layers.push({ x, y, colour });
  }
  return layers;
}

/** The cells of the iterations, unpacked when they are asked for; those that were asked for last are kept. */
class Frames {
  constructor(iterations, told) {
    this.iterations = iterations;
    this.count = told.layers.length;
    this.most = Math.min(Math.max(Math.floor(MOST_KEPT / told.most), 2), KEPT);
    this.reach = Math.min(AHEAD, this.most - 1);
    this.kept = new Map();
  }

  /** The frame of an iteration: its layers, once they are there, and a promise of them. */
  frame(index) {
    const frame = this.kept.get(index) || this.begun(index);
    this.kept.delete(index);
    this.kept.set(index, frame);
    if (this.kept.size > this.most) this.kept.delete(this.kept.keys().next().value);
    return frame;
  }

  begun(index) {
    const frame = { layers: null };
    frame.whole = this.unpacked(index).then((layers) => {
      frame.layers = layers;
      return layers;
    });
    // A frame that cannot be unpacked is told of when it is shown.
    frame.whole.catch(() => {});
    return frame;
  }

  async unpacked(index) {
    const packed = byId(`frame-${this.iterations[index]}`).textContent;
    return layersOf(await inflated(bytesOf(packed)), this.count);
  }

  /** Begins to unpack those behind an iteration. */
  ahead(index) {
    const last = Math.min(index + this.reach, this.iterations.length - 1);
    for (let own = index + 1; own <= last; own++) this.frame(own);
  }
}

/** A colour as a pixel of an image: red, green, blue and full strength, from the lowest byte on. */
function pixel(red, green, blue) {
  return ((255 << 24) | (blue << 16) | (green << 8) | red) >>> 0;
}

function pixelOf(text) {
  const number = parseInt(text.slice(1), 16);
  return pixel(number >> 16, (number >> 8) & 255, number & 255);
}

/** The colour between stops, for a part from 0 to 1. */
function between(stops, part) {
  const place = part * (stops.length - 1);
  const low = Math.min(Math.floor(place), stops.length - 2);
  const [red, green, blue] = stops[low].map((own, at) => Math.round(own + (stops[low + 1][at] - own) * (place - low)));
  return pixel(red, green, blue);
}

/** What gives the pixel of a number of a layer. */
function painterOf(layer, stops) {
  if (layer.each) {
    const pixels = new Map(layer.each.map(([number, colour]) => [number, pixelOf(colour)]));
    return (number) => pixels.get(number);
  }
  const [low, high] = layer.ramp;
  if (low === high) return () => between(stops, 0.5);
  const steps = Math.min(high - low, 4095);
  const pixels = Uint32Array.from({ length: steps + 1 }, (_, step) => between(stops, step / steps));
  return (number) => pixels[Math.round(((number - low) * steps) / (high - low))];
}

/** Where each of some columns or rows begins and ends in an image: side by side, or as dots about their middles. */
function spans(count, length, dot) {
  const starts = new Int32Array(count);
  const ends = new Int32Array(count);
  const side = length / count;
  for (let place = 0; place < count; place++) {
    if (side < dot) {
      starts[place] = Math.min(Math.max(Math.round((place + 0.5) * side - dot / 2), 0), Math.max(length - dot, 0));
      ends[place] = Math.min(starts[place] + dot, length);
    } else {
      starts[place] = Math.round(place * side);
      ends[place] = Math.round((place + 1) * side);
    }
  }
  return { starts, ends };
}

/** The grid: a canvas in the pixels of the screen. */
class Grid {
  constructor(told) {
    this.told = told;
    this.canvas = byId("cells");
    this.context = this.canvas.getContext("2d");
    this.painters = told.layers.map((layer) => painterOf(layer, told.stops));
    this.columns = told.right - told.left + 1;
    this.rows = told.high - told.low + 1;
    this.layers = null;
    this.label();
  }

  label() {
    const { left, right, low, high, isDown, layers, legend } = this.told;
    byId("left").textContent = left;
    byId("right").textContent = left === right ? "" : right;
    byId("top").textContent = isDown ? low : high;
    byId("bottom").textContent = low === high ? "" : isDown ? high : low;
    const ways = [...new Set(layers.map((layer) => `${layer.x} to the right, ${layer.y} ${isDown ? "downwards" : "upwards"}`))];
    byId("axes").textContent = ways.join("; ");
    for (const [colour, text] of legend) {
      const sample = element("span", { className: "sample" });
      sample.style.background = colour;
      byId("legend").append(element("li", {}, sample, text));
    }
  }

  /** Takes the room that there is. */
  fit() {
    const ratio = window.devicePixelRatio || 1;
    const room = byId("grid").clientWidth - byId("heights").offsetWidth - 6;
    const wide = Math.max(room, 100) * ratio;
    const tall = Math.max(window.innerHeight - 260, 280) * ratio;
    let side = Math.min(wide / this.columns, tall / this.rows, MOST_SIDE * ratio);
    if (side >= 4) side = Math.floor(side);
    const width = Math.max(Math.round(side * this.columns), Math.round(8 * ratio));
    const height = Math.max(Math.round(side * this.rows), Math.round(8 * ratio));
    this.canvas.width = width;
    this.canvas.height = height;
    this.canvas.style.width = `${width / ratio}px`;
    this.canvas.style.height = `${height / ratio}px`;
    this.image = this.context.createImageData(width, height);
    this.pixels = new Uint32Array(this.image.data.buffer);
    // Dots cover a quarter of the image at most.
    const dot = Math.max(Math.floor(Math.min(LEAST_DOT * ratio, Math.sqrt((width * height) / 4 / this.told.most))), 1);
    this.across = spans(this.columns, width, dot);
    this.along = spans(this.rows, height, dot);
    if (this.layers) this.draw(this.layers);
  }

  row(y) {
    return this.told.isDown ? y - this.told.low : this.told.high - y;
  }

  draw(layers) {
    this.layers = layers;
    this.pixels.fill(pixelOf(PAPER));
    layers.forEach((layer, place) => this.drawLayer(layer, this.painters[place]));
    this.context.putImageData(this.image, 0, 0);
  }

  drawLayer({ x, y, colour }, painter) {
    const { across, along, pixels } = this;
    const width = this.image.width;
    for (let cell = 0; cell < x.length; cell++) {
      const column = x[cell] - this.told.left;
      const row = this.row(y[cell]);
      const start = across.starts[column];
      const end = across.ends[column];
      const paint = painter(colour[cell]);
      const last = along.ends[row] * width;
      for (let line = along.starts[row] * width; line < last; line += width) {
        for (let at = line + start; at < line + end; at++) pixels[at] = paint;
      }
    }
  }

  /** What stands at a place of the screen, a line for each that differs. */
  toldAt(clientX, clientY) {
    const box = this.canvas.getBoundingClientRect();
    const px = Math.floor(((clientX - box.left) * this.canvas.width) / box.width);
    const py = Math.floor(((clientY - box.top) * this.canvas.height) / box.height);
    const found = new Map();
    (this.layers || []).forEach((layer, place) => {
      for (let cell = 0; cell < layer.x.length; cell++) {
        if (this.covers(layer.x[cell], layer.y[cell], px, py)) {
          const text = this.toldOf(this.told.layers[place], layer.x[cell], layer.y[cell], layer.colour[cell]);
          found.set(text, (found.get(text) || 0) + 1);
        }
      }
    });
    const lines = [...found].map(([text, count]) => (count === 1 ? text : `${text} (${count} times)`));
    if (lines.length > MOST_TOLD) lines.splice(MOST_TOLD - 1, Infinity, `and ${lines.length - MOST_TOLD + 1} more`);
    return lines.length ? lines.join("\n") : this.toldOfNone(px, py);
  }

  covers(x, y, px, py) {
    const column = x - this.told.left;
    const row = this.row(y);
    const { across, along } = this;
    return across.starts[column] <= px && px < across.ends[column] && along.starts[row] <= py && py < along.ends[row];
  }

  toldOf(layer, x, y, colour) {
    const where = `${layer.x} ${x}, ${layer.y} ${y}`;
    if (layer.colour) return `${layer.agent}: ${where}, ${layer.colour} ${colour}`;
    return `${layer.agent}: ${where}, ${colour} ${colour === 1 ? "agent" : "agents"}`;
  }

  toldOfNone(px, py) {
    const column = Math.min(Math.floor((px * this.columns) / this.canvas.width), this.columns - 1);
    const row = Math.min(Math.floor((py * this.rows) / this.canvas.height), this.rows - 1);
    const layer = this.told.layers[0];
    const y = this.told.isDown ? this.told.low + row : this.told.high - row;
    return `nobody: ${layer.x} ${this.told.left + column}, ${layer.y} ${y}`;
  }
}

/** The least of 1, 2 and 5 times a power of ten by which a span has at most so many steps. */
function stepFor(span, most) {
  if (!(span > 0)) return 1;
  const power = 10 ** Math.floor(Math.log10(span / most));
  return [1, 2, 5, 10].map((times) => times * power).find((step) => step * most >= span * (1 - 1e-9)) || 10 * power;
}

/** Round numbers between two numbers. */
function ticksOf(low, high, most) {
  const step = stepFor(high - low, most);
  const first = Math.ceil(low / step - 1e-9);
  // Great numbers may not differ by a step, so it is counted.
  const ticks = Array.from({ length: most + 2 }, (_, place) => (first + place) * step);
  return ticks.filter((tick) => tick <= high + step * 1e-9);
}

function labelOf(number) {
  return Number.isInteger(number) ? String(number) : String(Number(number.toPrecision(6)));
}

/** From where to where the heights go: from 0 where nothing is below it and much lies near it, with a little room above. */
function heightsOf(numbers) {
  let low = Infinity;
  let high = -Infinity;
  for (const number of numbers) {
    low = Math.min(low, number);
    high = Math.max(high, number);
  }
  if (low > high) return [0, 1];
  if (0 <= low && low <= high / 2) low = 0;
  if (high <= 0 && low / 2 <= high) high = 0;
  if (low === high) {
    const room = Math.max(1, Math.abs(low) / 1e6);
    return [low - room, high + room];
  }
  return [low, high === 0 ? high : high + (high - low) * 0.04];
}

/** The lines of the table over the iterations. */
class Chart {
  constructor(data) {
    this.xs = data.iterations;
    this.lines = data.columns.map((column, place) => ({
      numbers: column.cells.map((cell) => (cell === "" ? null : Number(cell))),
      colour: data.colours[place % data.colours.length],
      dash: data.dashes[Math.floor(place / data.colours.length) % data.dashes.length],
      isShown: true,
    }));
    this.canvas = byId("paths");
    this.context = this.canvas.getContext("2d");
  }

  shown() {
    return this.lines.filter((line) => line.isShown);
  }

  fit() {
    const ratio = window.devicePixelRatio || 1;
    this.width = byId("chart").clientWidth;
    this.height = byId("chart").clientHeight;
    this.canvas.width = Math.round(this.width * ratio);
    this.canvas.height = Math.round(this.height * ratio);
    this.context.setTransform(ratio, 0, 0, ratio, 0, 0);
    this.draw();
  }

  draw() {
    this.scale();
    this.context.clearRect(0, 0, this.width, this.height);
    this.drawAxes();
    for (const line of this.shown()) this.drawLine(line);
    byId("mark").style.top = `${this.top}px`;
    byId("mark").style.height = `${this.bottom - this.top}px`;
  }

  /** Lays out the axes. */
  scale() {
    const numbers = this.shown().flatMap((line) => line.numbers.filter((number) => number !== null));
    [this.low, this.high] = heightsOf(numbers);
    this.first = this.xs[0];
    this.last = this.xs[this.xs.length - 1];
    if (this.first === this.last) [this.first, this.last] = [this.first - 1, this.last + 1];
    this.context.font = "12px sans-serif";
    this.heights = ticksOf(this.low, this.high, 6);
    this.left = 14 + Math.max(...this.heights.map((tick) => this.context.measureText(labelOf(tick)).width));
    this.right = this.width - 6 - Math.max(8, this.context.measureText(labelOf(this.last)).width / 2);
    this.top = 10;
    this.bottom = this.height - 26;
  }

  xAt(x) {
    return this.left + ((this.right - this.left) * (x - this.first)) / (this.last - this.first);
  }

  yAt(y) {
    return this.bottom - ((this.bottom - this.top) * (y - this.low)) / (this.high - this.low);
  }

  drawAxes() {
    const { context, left, right, bottom } = this;
    context.fillStyle = INK;
    context.lineWidth = 1;
    context.setLineDash([]);
    context.textAlign = "right";
    for (const tick of this.heights) {
      this.stroke("#d8d8d8", left, this.yAt(tick), right, this.yAt(tick));
      context.fillText(labelOf(tick), left - 6, this.yAt(tick) + 4);
    }
    context.textAlign = "center";
    const most = Math.max(2, Math.min(10, Math.floor((right - left) / 60)));
    for (const tick of ticksOf(this.first, this.last, most).filter(Number.isInteger)) {
      this.stroke(INK, this.xAt(tick), bottom, this.xAt(tick), bottom + 5);
      context.fillText(labelOf(tick), this.xAt(tick), bottom + 18);
    }
    this.stroke(INK, left, bottom, right, bottom);
  }

  stroke(colour, x1, y1, x2, y2) {
    this.context.strokeStyle = colour;
    this.context.beginPath();
    this.context.moveTo(x1, y1);
    this.context.lineTo(x2, y2);
    this.context.stroke();
  }

  /** A line, of which a missing number is a gap and a number between gaps a dot. */
  drawLine({ numbers, colour, dash }) {
    const { context } = this;
    context.strokeStyle = context.fillStyle = colour;
    context.lineWidth = 1.8;
    context.lineJoin = "round";
    context.setLineDash(dash ? dash.split(" ").map(Number) : []);
    context.beginPath();
    numbers.forEach((number, place) => {
      if (number === null) return;
      const x = this.xAt(this.xs[place]);
      const isFirst = place === 0 || numbers[place - 1] === null;
      if (isFirst) context.moveTo(x, this.yAt(number));
      else context.lineTo(x, this.yAt(number));
      if (isFirst && (place + 1 === numbers.length || numbers[place + 1] === null)) {
        context.fillRect(x - 2, this.yAt(number) - 2, 4, 4);
      }
    });
    context.stroke();
  }

  mark(index) {
    byId("mark").style.left = `${this.xAt(this.xs[index]) - 1}px`;
  }

  /** The iteration at a place of the screen. */
  indexAt(clientX) {
    const from = byId("chart").getBoundingClientRect().left + this.left;
    const x = this.first + ((clientX - from) * (this.last - this.first)) / (this.right - this.left);
    return nearest(this.xs, x);
  }
}

/** The place of the number nearest to another, among numbers that ascend. */
function nearest(numbers, wanted) {
  let low = 0;
  let high = numbers.length - 1;
  while (low < high) {
    const middle = (low + high) >> 1;
    if (numbers[middle] < wanted) low = middle + 1;
    else high = middle;
  }
  return low > 0 && wanted - numbers[low - 1] <= numbers[low] - wanted ? low - 1 : low;
}

/** A short piece of a line, as a sample of its colour and dash. */
function sampleOf({ colour, dash }) {
  const space = "http://www.w3.org/2000/svg";
  const drawn = document.createElementNS(space, "svg");
  const line = document.createElementNS(space, "line");
  const set = (own, values) => Object.entries(values).forEach(([name, value]) => own.setAttribute(name, value));
  set(drawn, { width: 34, height: 10, "aria-hidden": "true" });
  set(line, { x1: 0, y1: 2, x2: 28, y2: 2, stroke: colour, "stroke-width": 2.4, "stroke-dasharray": dash });
  drawn.append(line);
  return drawn;
}

/** The numbers of the iteration that is shown, a row for each line; a box in a row shows its line or hides it. */
class Numbers {
  constructor(columns, chart) {
    this.columns = columns;
    this.cells = columns.map((column, place) => {
      const line = chart.lines[place];
      const box = element("input", { type: "checkbox", checked: true });
      box.addEventListener("change", () => {
        line.isShown = box.checked;
        chart.draw();
        chart.mark(this.index);
      });
      const cell = element("td");
      const name = element("td", {}, element("label", {}, box, sampleOf(line), column.name));
      byId("numbers").append(element("tr", {}, name, cell));
      return cell;
    });
  }

  show(index) {
    this.index = index;
    this.columns.forEach((column, place) => {
      this.cells[place].textContent = column.cells[index] === "" ? "-" : column.cells[index];
    });
  }
}

/** The whole page: which iteration it shows, and what moves it. */
class Page {
  constructor(data) {
    this.word = data.word;
    this.iterations = data.iterations;
    this.last = data.iterations.length - 1;
    this.index = 0;
    this.isPlaying = false;
    this.due = 0;
    this.chart = new Chart(data);
    this.numbers = new Numbers(data.columns, this.chart);
    byId("reading").hidden = true;
    byId("main").hidden = false;
    byId("slider").max = this.last;
    byId("slider").setAttribute("aria-label", this.word);
    // One iteration makes no lines.
    byId("chart").hidden = this.last === 0;
    if (data.grid) this.openGrid(data);
    this.listen();
    this.fit();
    this.show(this.indexOfAddress() || 0);
  }

  openGrid(data) {
    if (typeof DecompressionStream === "undefined") {
      tell("This browser cannot unpack the agents of this page: it has no DecompressionStream. "
        + "Chrome and Edge have it from version 80 on, Firefox from 113 on, Safari from 16.4 on.");
      return;
    }
    byId("grid").hidden = false;
    byId("figures").className = "both";
    this.grid = new Grid(data.grid);
    this.frames = new Frames(data.iterations, data.grid);
  }

  fit() {
    if (this.grid) this.grid.fit();
    this.chart.fit();
    this.chart.mark(this.index);
  }

  /** Shows an iteration; its agents as soon as they are unpacked. */
  show(index) {
    this.index = Math.min(Math.max(index, 0), this.last);
    const iteration = this.iterations[this.index];
    byId("slider").value = this.index;
    byId("slider").setAttribute("aria-valuetext", `${this.word} ${iteration}`);
    byId("told").textContent = `${this.word} ${iteration} of ${this.iterations[this.last]}`;
    byId("caption").textContent = `Numbers of ${this.word} ${iteration}`;
    this.numbers.show(this.index);
    this.chart.mark(this.index);
    if (this.grid) this.showCells(this.index);
    clearTimeout(this.settling);
    this.settling = setTimeout(() => this.settle(), 400);
  }

  async showCells(index) {
    const frame = this.frames.frame(index);
    this.frames.ahead(index);
    try {
      const layers = frame.layers || (await frame.whole);
      if (index !== this.index) return;
      this.grid.draw(layers);
      this.retell();
    } catch (fault) {
      this.stop();
      tell(`The agents of ${this.word} ${this.iterations[index]} cannot be unpacked: the page is damaged.`);
    }
  }

  /** Once it rests on an iteration: the address names it, and it is told to those who hear the page. */
  settle() {
    const iteration = this.iterations[this.index];
    byId("cells").setAttribute("aria-label", `the agents of ${this.word} ${iteration}`);
    byId("paths").setAttribute("aria-label", `lines over the iterations, with a mark at ${this.word} ${iteration}`);
    if (this.isPlaying) return;
    byId("spoken").textContent = `${this.word} ${iteration}`;
    try {
      history.replaceState(null, "", `#${iteration}`);
    } catch (fault) {
      // Where a page may not change its address, the address stays.
    }
  }

  /** The iteration that the address names behind a #. */
  indexOfAddress() {
    const found = /^#(-?[0-9]+)$/.exec(location.hash);
    return found ? nearest(this.iterations, Number(found[1])) : null;
  }

  play() {
    if (this.last === 0) return;
    if (this.index === this.last) this.show(0);
    this.isPlaying = true;
    byId("play").textContent = "Stop";
    this.due = performance.now() + this.pause();
    requestAnimationFrame((now) => this.tick(now));
  }

  stop() {
    if (!this.isPlaying) return;
    this.isPlaying = false;
    byId("play").textContent = "Play";
    this.settle();
  }

  pause() {
    return 1000 / Number(byId("speed").value);
  }

  /** A step where it is due and the next iteration is unpacked. */
  tick(now) {
    if (!this.isPlaying) return;
    const isReady = !this.grid || this.frames.frame(this.index).layers;
    if (now >= this.due && isReady) {
      // Who was held up does not hurry after.
      this.due = Math.max(this.due + this.pause(), now);
      this.show(this.index + 1);
      if (this.index === this.last) return this.stop();
    }
    requestAnimationFrame((later) => this.tick(later));
  }

  toggle() {
    if (this.isPlaying) this.stop();
    else this.play();
  }

  /** Goes to an iteration by hand, which ends the playing. */
  goTo(index) {
    this.stop();
    this.show(index);
  }

  listen() {
    byId("play").addEventListener("click", () => this.toggle());
    byId("back").addEventListener("click", () => this.goTo(this.index - 1));
    byId("next").addEventListener("click", () => this.goTo(this.index + 1));
    byId("slider").addEventListener("input", () => this.goTo(Number(byId("slider").value)));
    document.addEventListener("keydown", (event) => this.key(event));
    window.addEventListener("resize", () => this.fit());
    window.addEventListener("hashchange", () => {
      const index = this.indexOfAddress();
      if (index !== null && index !== this.index) this.goTo(index);
    });
    this.listenToChart();
    if (this.grid) this.listenToGrid();
  }

  listenToChart() {
    const chart = byId("chart");
    const follow = (event) => {
      if (event.buttons & 1) this.goTo(this.chart.indexAt(event.clientX));
    };
    chart.addEventListener("pointerdown", follow);
    chart.addEventListener("pointermove", follow);
  }

  listenToGrid() {
    const canvas = byId("cells");
    const follow = (event) => {
      this.pointer = { x: event.clientX, y: event.clientY };
      this.retell();
    };
    const leave = () => {
      this.pointer = null;
      byId("tip").hidden = true;
    };
    canvas.addEventListener("pointermove", follow);
    canvas.addEventListener("pointerdown", follow);
    canvas.addEventListener("pointerleave", (event) => {
      if (event.pointerType === "mouse") leave();
    });
    // A tap tells until something else is tapped or the page moves under it.
    document.addEventListener("pointerdown", (event) => {
      if (event.target !== canvas) leave();
    });
    window.addEventListener("scroll", leave, { passive: true });
  }

  /** Tells what stands under the pointer. */
  retell() {
    if (!this.pointer) return;
    const tip = byId("tip");
    const { x, y } = this.pointer;
    tip.textContent = this.grid.toldAt(x, y);
    tip.hidden = false;
    tip.style.left = `${Math.max(8, Math.min(x + 14, document.documentElement.clientWidth - tip.offsetWidth - 8))}px`;
    tip.style.top = `${y + 18 + tip.offsetHeight > window.innerHeight ? y - tip.offsetHeight - 10 : y + 18}px`;
  }

  /** Keys move the page wherever the focus is, but where they have a meaning of their own there. */
  key(event) {
    const name = event.target.tagName;
    if (event.ctrlKey || event.altKey || event.metaKey || name === "SELECT") return;
    const moves = { ArrowLeft: this.index - 1, ArrowRight: this.index + 1, Home: 0, End: this.last };
    if (event.key in moves) this.goTo(moves[event.key]);
    else if (event.key === " " && name !== "BUTTON" && event.target.type !== "checkbox") this.toggle();
    else return;
    event.preventDefault();
  }
}

function tell(text) {
  byId("notice").textContent = text;
  byId("notice").hidden = false;
}

const page = new Page(JSON.parse(byId("data").textContent));
