// Runs what the page for browsers has, under node: page.mjs PAGE [MOST] < ASKED. ASKED is a JSON list of questions, each a name of
// `asked` and its operands. Writes the JSON list of the answers. The module gets at most MOST pages of memory, each of 65,536 bytes.
import fs from "node:fs";
import vm from "node:vm";
import zlib from "node:zlib";

const page = fs.readFileSync(process.argv[2], "utf8");
const part = id => new RegExp(`<script[^>]* id=${id}>([^]*?)</script>`).exec(page)[1];
vm.runInThisContext(part("drawing"));
const drawing = name => vm.runInThisContext(name);

const waiting = new Map();
const worker = vm.createContext({WebAssembly, TextEncoder, TextDecoder, performance, onmessage: null,
  postMessage: answer => waiting.get(answer.id)(answer)});
vm.runInContext(part("worker"), worker);
const module = zlib.gunzipSync(Buffer.from(part("module"), "base64"));
worker.onmessage({data: {module: process.argv[3] ? limited(module, Number(process.argv[3])) : module}});
let count = 0;
const call = message => new Promise(done => {
  waiting.set(++count, done);
  worker.onmessage({data: {id: count, ...message}});
});
// The module with a limit of its memory: its section 5 says how many pages there are at first, and then how many at most.
function limited(bytes, most) {
  const number = at => {
    let value = 0, shift = 0, byte;
    do {
      byte = bytes[at++];
      value |= (byte & 127) << shift;
      shift += 7;
    } while (byte & 128);
    return [value, at];
  };
  const written = value => (value < 128 ? [value] : [value & 127 | 128, ...written(value >> 7)]);
  for (let at = 8; at < bytes.length;) {
    const [size, begin] = number(at + 1);
    if (bytes[at] === 5) {
      const [first] = number(begin + 2), section = [1, 1, ...written(first), ...written(most)];
      return Buffer.concat([bytes.subarray(0, at), Buffer.from([5, ...written(section.length), ...section]), bytes.subarray(begin + size)]);
    }
    at = begin + size;
  }
}
const tried = made => {
  try {
    return made();
  } catch (fault) {
    return {fault: fault.message, span: fault.span};
  }
};

const asked = {
  // A command: its code and its output, or why there is none.
  call: async (words, input, json = false) => {
    const {code, reply, fault} = await call({kind: "run", words, input, json});
    return fault ?? [code, reply];
  },
  // How many bytes the reply of a command has, and how often the library was called for it.
  counted: async words => {
    await call({kind: "run", words: []});
    vm.runInContext(`times = 0;
      ca = {...ca, ca_run: (own => (...operands) => { times++; return own(...operands); })(ca.ca_run)};`, worker);
    const {reply} = await call({kind: "run", words});
    return [reply.length, worker.times];
  },
  sums: async (text, letters) => {
    const {rows, rings, fault} = await call({kind: "sums", rule: drawing("ruleOf")(text), letters});
    return fault ?? [rows, rings];
  },
  // A function of the library: its result, and what it leaves in each room. An operand is a number, {whole: DIGITS} of 64 bits,
  // {bytes: HEX} with its length, or {room: BYTES}, with its length if that is `sized`.
  raw: async (name, operands) => {
    await call({kind: "run", words: []});
    const ca = vm.runInContext("ca", worker), held = [], rooms = [];
    const put = data => {
      const begin = ca.ca_take(BigInt(Math.max(data.length, 1)));
      new Uint8Array(ca.memory.buffer).set(data, Number(begin));
      held.push(begin);
      return begin;
    };
    const given = operands.flatMap(it => {
      if (typeof it === "number") return [it];
      if (it.whole) return [BigInt(it.whole)];
      if (it.bytes !== undefined) return [put(Buffer.from(it.bytes, "hex")), BigInt(it.bytes.length / 2)];
      rooms.push([put(Buffer.from(it.begin ?? "".padEnd(2 * it.room, "0"), "hex")), it.room]);
      return [rooms.at(-1)[0], ...(it.sized ? [BigInt(it.room)] : [])];
    });
    const result = ca[name](...given), left = rooms.map(([begin, size]) =>
      Buffer.from(ca.memory.buffer, Number(begin), size).toString("hex"));
    held.forEach(it => ca.ca_give(it));
    return [String(result), ...left];
  },
  moved: async (text, by) => {
    const {windows, ring, fault} = await call({kind: "moved", rule: drawing("ruleOf")(text), by});
    return fault ?? [windows, ring];
  },
  degree: async text => {
    const {degree, right, left, fault} = await call({kind: "degree", rule: drawing("ruleOf")(text)});
    return fault ?? [degree, right, left];
  },
  isDegree: async (text, ...found) => drawing("isDegree")(new (drawing("Graph"))(drawing("ruleOf")(text)), ...found),
  pictureOfDegree: async (text, right, left) => tried(() => drawing("pictureOfDegree")(drawing("ruleOf")(text), right, left)),
  pictureOfMoved: async (text, found) => tried(() => drawing("pictureOfMoved")(drawing("ruleOf")(text), found)),
  areMoved: async (text, by, found) => drawing("areMoved")(new (drawing("Graph"))(drawing("ruleOf")(text)), by, found),
  // A picture of a report with the weights that were given, or why there is none.
  picture: async (report, given, show, withGraph, found) => tried(() =>
    drawing("picture")({...report, given, weights: given ?? report.weights}, show, withGraph, found)),
  fits: async (report, given) => tried(() => {
    const known = {...report, weights: given ?? report.weights};
    drawing("workOut")(known, new (drawing("Graph"))(drawing("ruleOf")(report.rule), known.weights));
    return true;
  }),
  current: async (report, given) => {
    const graph = new (drawing("Graph"))(drawing("ruleOf")(report.rule), given ?? report.weights);
    return drawing("currentOf")(graph, report.conserving.flux);
  },
  rule: async text => tried(() => drawing("textOf")(drawing("ruleOf")(text))),
  weights: async (text, states) => tried(() => drawing("weightsOf")(text, states)),
  tail: async (text, states) => tried(() => drawing("tailText")(drawing("tailOf")(text, states))),
  kin: async text => drawing("classOf")(drawing("ruleOf")(text)).map(drawing("textOf")),
  mirror: async text => drawing("textOf")(drawing("mirror")(drawing("ruleOf")(text))),
};
const answers = [];
for (const [name, ...operands] of JSON.parse(fs.readFileSync(0, "utf8"))) answers.push(await asked[name](...operands));
fs.writeFileSync(1, JSON.stringify(answers));
