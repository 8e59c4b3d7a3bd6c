// A canvas that writes SVG as the Python package does (drawing.py). Both have the colours and the sizes from pictures.json.
const {margin: MARGIN, widest: WIDEST, phone: PHONE} = PICTURES.sizes;
const [PAPER, SHADE, MARK, INK, GREY, LIGHT, FIRST, SECOND, ZERO, ONE] =
  ["paper", "shade", "mark", "ink", "grey", "light", "first", "second", "zero", "one"].map(name => PICTURES.colours[name][0]);
const DASHES = "6 4", WIDTH = 0.65, BOLD = 0.7;     // of the second walk; and the widths of digits of size 1

const escaped = text => String(text).replace(/[&<>"']/g, letter => `&#${letter.charCodeAt(0)};`);
const one = number => number.toFixed(1);

// The lines of a text of at most so many letters each. A word that is longer than a line goes on in the next one.
function wrapped(text, letters) {
  const lines = [""];
  for (let word of text.split(/\s+/).filter(Boolean)) {
    const line = lines.at(-1), gap = line ? 1 : 0;
    if (line.length + gap + word.length <= letters) {
      lines[lines.length - 1] += (gap ? " " : "") + word;
      continue;
    }
    if (word.length > letters && line.length + gap < letters) {
      const room = letters - line.length - gap;
      lines[lines.length - 1] += (gap ? " " : "") + word.slice(0, room);
      word = word.slice(room);
    }
    for (; word.length > letters; word = word.slice(letters)) lines.push(word.slice(0, letters));
    if (word) lines.push(word);
  }
  return lines.filter(Boolean);
}

class Canvas {
  constructor(title) {
    this.title = title;
    this.width = this.height = 0;
    this.parts = [];
  }
  reach(x, y) {
    this.width = Math.max(this.width, x);
    this.height = Math.max(this.height, y);
  }
  // A text with its base line at y.
  text(x, y, text, {size = 12, anchor = "middle", color = INK, bold = false} = {}) {
    this.reach(x + {start: 1, middle: 0.5, end: 0}[anchor] * text.length * size * (bold ? BOLD : WIDTH), y + size / 3);
    this.parts.push(`<text x="${one(x)}" y="${one(y)}" font-size="${size}" text-anchor="${anchor}" fill="${color}"`
      + `${bold ? ' font-weight="bold"' : ""}>${escaped(text)}</text>`);
  }
  // A text from the left margin on, in as many lines as it takes; where the last one stands.
  lines(y, text, {size = 13, color = INK, bold = false, room = WIDEST} = {}) {
    wrapped(text, Math.floor((room - 2 * MARGIN) / (size * (bold ? BOLD : WIDTH)))).forEach((line, place) => {
      y += place ? 1.35 * size : 0;
      this.text(MARGIN, y, line, {size, anchor: "start", color, bold});
    });
    return y;
  }
  // What `draw` draws shows the title where the pointer rests on it.
  titled(title, draw) {
    this.parts.push(`<g><title>${escaped(title)}</title>`);
    draw();
    this.parts.push("</g>");
  }
  disc(x, y, radius, fill, line) {
    this.reach(x + radius, y + radius);
    this.parts.push(`<circle cx="${one(x)}" cy="${one(y)}" r="${radius}" fill="${fill}" stroke="${line}" stroke-width="1.3"/>`);
  }
  box(x, y, width, height, fill, line = "") {
    this.reach(x + width, y + height);
    this.parts.push(`<rect x="${one(x)}" y="${one(y)}" width="${one(width)}" height="${one(height)}" fill="${fill}"`
      + `${line ? ` stroke="${line}"` : ""}/>`);
  }
  line(points, color, width = 1.2, dashes = "") {
    points.forEach(([x, y]) => this.reach(x, y));
    const path = points.map(([x, y]) => `${one(x)},${one(y)}`).join(" ");
    this.parts.push(`<polyline points="${path}" fill="none" stroke="${color}" stroke-width="${width}"`
      + `${dashes ? ` stroke-dasharray="${dashes}"` : ""}/>`);
  }
  // A line through the points with a head at its end.
  arrow(points, color, width = 1.2, dashes = "") {
    this.line(points, color, width, dashes);
    const [x, y] = points.at(-1), [u, v] = points.at(-2), angle = Math.atan2(y - v, x - u);
    const sides = [-0.38, 0.38].map(turn => [x - 8 * Math.cos(angle + turn), y - 8 * Math.sin(angle + turn)]);
    this.parts.push(`<polygon points="${[[x, y], ...sides].map(([a, b]) => `${one(a)},${one(b)}`).join(" ")}" fill="${color}"/>`);
  }
  svg() {
    const width = Math.ceil(this.width + MARGIN), height = Math.ceil(this.height + MARGIN);
    return `<svg xmlns="http://www.w3.org/2000/svg" class="foursaspen" role="img" aria-label="${escaped(this.title)}" width="${width}" `
      + `height="${height}" viewBox="0 0 ${width} ${height}" font-family="DejaVu Sans, Verdana, sans-serif">`
      + `<title>${escaped(this.title)}</title><rect width="${width}" height="${height}" fill="${PAPER}"/>${this.parts.join("")}</svg>`;
  }
}
// The colours of pictures where the reader's system is dark, for the style of the page.
const nightStyle = () => `@media (prefers-color-scheme: dark) {${Object.values(PICTURES.colours).flatMap(([day, night]) =>
  ["fill", "stroke"].map(part => `.foursaspen [${part}="${day}"]{${part}:${night}}`)).join("")}}`;
