"use strict";
// Calls the WebAssembly module apart from the page, which stays usable meanwhile, one call after another.
//
// The first message has the bytes of the module. Each other message has an `id`, a `kind` of call and its operands. Its answer has
// the same `id`, what the call comes to and the milliseconds, or a `fault`. Pointers and sizes are 64-bit integers, though the memory
// has less than 4 GiB.
const ROOM = (1 << 23) - 64;                    // bytes of the buffer: enough for every reply
const DEGREE_LETTERS = 131070, MEMORY = 8, SHORT = 10;     // a limit and codes of include/ca.h
const LACKING = "there is no memory";

let ca, buffer, size;

// Calls `use` with functions that take blocks of the module's heap, and frees these blocks.
function held(use) {
  const blocks = [];
  const take = bytes => {
    const begin = ca.ca_take(BigInt(bytes));
    if (begin === 0n) throw new Error(LACKING);
    blocks.push(begin);
    return begin;
  };
  const put = bytes => {
    const begin = take(bytes.length);
    new Uint8Array(ca.memory.buffer).set(bytes, Number(begin));
    return [begin, BigInt(bytes.length)];
  };
  try {
    return use(take, put);
  } finally {
    blocks.forEach(it => ca.ca_give(it));
  }
}

// Carries out a command: the code of include/ca.h, and the reply as text or as JSON.
function run({words, input = "", json}) {
  const bytesOf = text => (typeof text === "string" ? new TextEncoder().encode(text) : text), call = json ? ca.ca_run_json : ca.ca_run;
  return held((take, put) => {
    const operands = [...put(bytesOf(words.map(word => `${word}\0`).join(""))), ...put(bytesOf(input))], length = take(8);
    for (;;) {
      const code = call(...operands, buffer, size, length);
      const long = new DataView(ca.memory.buffer).getBigUint64(Number(length), true);
      if (code === MEMORY) throw new Error(LACKING);
      if (code !== SHORT)
        return {code, reply: new TextDecoder().decode(new Uint8Array(ca.memory.buffer, Number(buffer), Number(long)))};
      makeBuffer(long);
    }
  });
}
function makeBuffer(bytes) {
  if (buffer) ca.ca_give(buffer);
  [buffer, size] = [ca.ca_take(bytes), bytes];
  if (buffer === 0n) throw new Error(LACKING);
}

// The sums that a rule keeps, of weights of words of `letters` letters: the rows by the values of their words, and the rings of the
// words that begin no row, as in struct ca_kept_sums.
function sums({rule: {states, width, table}, letters}) {
  return held((take, put) => {
    const found = take(2304), fault = ca.ca_kept_sums(states, width, ...put(Uint8Array.from(table)), letters, found);
    if (fault) throw new Error(`ca_kept_sums gives ${fault}`);
    const view = new DataView(ca.memory.buffer, Number(found), 2304), rows = [], rings = [];
    for (let word = 0; word < states ** letters; word++) {
      const row = Array.from({length: states ** letters}, (_, place) => Number(view.getBigInt64(128 * word + 8 * place, true)));
      const count = view.getUint8(2048 + word);
      if (count) rings.push([word, Array.from({length: count}, (_, place) => view.getUint8(2064 + 15 * word + place))]);
      else if (row.some(Boolean)) rows.push(row);
    }
    return {rows, rings};
  });
}

// The configurations that a rule only moves by `by` cells: the values of their windows, and the letters of the least ring, as in
// struct ca_moved_configs.
function moved({rule: {states, width, offset, table}, by}) {
  return held((take, put) => {
    const found = take(50), fault = ca.ca_moved(states, width, offset, ...put(Uint8Array.from(table)), by, found);
    if (fault) throw new Error(`ca_moved gives ${fault}`);
    const view = new DataView(ca.memory.buffer, Number(found), 50), all = [...table.keys()];
    const windows = all.filter(window => view.getUint16(2 * Math.floor(window / states), true) >> window % states & 1);
    return {windows, ring: Array.from({length: view.getUint8(48)}, (_, place) => view.getUint8(32 + place))};
  });
}

// How many preimages configurations have, as in struct ca_rule_degree: the degree, or 0 if the rule isn't surjective; and for each side the
// least number of nodes, these nodes, and the word that has so few.
function degree({rule: {states, width, offset, table}}) {
  return held((take, put) => {
    const found = take(48), letters = take(DEGREE_LETTERS), room = BigInt(DEGREE_LETTERS);
    const code = ca.ca_degree(states, width, offset, ...put(Uint8Array.from(table)), found, letters, room, take(8));
    if (code === MEMORY) throw new Error(LACKING);
    const view = new DataView(ca.memory.buffer, Number(found), 48);
    const word = at => [...new Uint8Array(ca.memory.buffer, Number(letters) + Number(view.getBigUint64(at, true)),
      Number(view.getBigUint64(at + 8, true)))];
    const nodes = at => [...Array(16).keys()].filter(node => view.getUint16(at, true) >> node & 1);
    const side = (count, list, text) => ({count: view.getUint8(count), nodes: nodes(list), word: word(text)});
    return {degree: view.getUint8(1), right: side(2, 6, 16), left: side(3, 8, 32)};
  });
}

const calls = {run, sums, moved, degree};
let ready;                                      // that the module is there

async function begin(module) {
  ca = (await WebAssembly.instantiate(module, {})).instance.exports;
  makeBuffer(BigInt(ROOM));
}

onmessage = async ({data}) => {
  if (data.module) {
    ready = begin(data.module);
    return;
  }
  try {
    await ready;
    const begun = performance.now();
    postMessage({id: data.id, ...calls[data.kind](data), ms: performance.now() - begun});
  } catch (fault) {
    postMessage({id: data.id, fault: `The module failed: ${fault.message}`});
  }
};
