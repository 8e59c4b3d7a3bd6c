// Tests the module of tests/support_test.py, with as much memory as it asks for (the first file) and with little (the second one), and
// writes how many tests passed and failed. What is right is said by whole numbers of any size and by the definition of the instruction.
import fs from "node:fs";

const LARGEST = (1n << 128n) - 1n, HALF = (1n << 64n) - 1n;
let passed = 0, failed = 0;
function is(name, holds) {
  if (holds) passed++;
  else console.error(`support_test: ${name}`, failed++);
}
const begin = async file => (await WebAssembly.instantiate(fs.readFileSync(file), {})).instance.exports;
const view = it => new DataView(it.memory.buffer);
const bytes = it => new Uint8Array(it.memory.buffer);

// Arithmetic of 128 bits

const large = await begin(process.argv[2]), made = large.ca_take(16n);
const halves = number => [BigInt.asIntN(64, number & HALF), BigInt.asIntN(64, number >> 64n)];
const wide = () => view(large).getBigUint64(Number(made), true) | view(large).getBigUint64(Number(made) + 8, true) << 64n;
const borders = [0n, 1n, 2n, 0xffffffffn, 0x100000000n, 0xffffffff00000000n, HALF, 1n << 64n, (1n << 64n) + 1n, (1n << 96n) - 1n,
  1n << 96n, 1n << 127n, LARGEST, LARGEST - 1n, 0x123456789abcdef0fedcba9876543210n, 0xfffffffeffffffff00000001fffffffen];
for (const a of borders)
  for (const b of borders) {
    large.__multi3(made, ...halves(a), ...halves(b));
    is(`${a} * ${b}`, wide() === (a * b & LARGEST));
  }
for (const a of borders)
  for (let by = 0; by < 128; by++) {
    large.__ashlti3(made, ...halves(a), by);
    is(`${a} << ${by}`, wide() === (a << BigInt(by) & LARGEST));
    large.__lshrti3(made, ...halves(a), by);
    is(`${a} >> ${by}`, wide() === a >> BigInt(by));
  }

// The instruction: every byte of the mask at every place

const [v, m] = [large.ca_take(16n), large.ca_take(16n)];
for (let byte = 0; byte < 256; byte++) {
  const value = Array.from({length: 16}, (_, place) => 17 * place + 5 & 255), mask = value.map((_, place) => byte + 31 * place & 255);
  bytes(large).set(value, Number(v));
  bytes(large).set(mask, Number(m));
  large.shuffled(made, v, m);
  const wanted = mask.map(it => (it & 128 ? 0 : value[it & 15]));
  is(`shuffled by ${byte}`, wanted.every((it, place) => bytes(large)[Number(made) + place] === it));
}

// The heap

function tried(it, call, ...operands) {
  const put = it === large ? made : room;
  call(put, ...operands);
  return view(it).getBigUint64(Number(put), true) === 1n ? view(it).getBigUint64(Number(put) + 8, true) : null;
}
// Blocks of all sizes don't meet, keep what is in them, and lie at multiples of 16.
function fill(it, block, size, mark) { bytes(it).fill(mark, Number(block), Number(block) + size); }
const holds = (it, block, size, mark) => bytes(it).subarray(Number(block), Number(block) + size).every(byte => byte === mark);
const sizes = [0, 1, 15, 16, 17, 31, 32, 48, 49, 1000, 4096, 65520, 65536, 65537, 1000000];
const held = sizes.map((size, mark) => ({size, mark, block: tried(large, large.rattle_alloc, BigInt(size), 16n)}));
held.forEach(({block, size, mark}) => fill(large, block, size, mark + 1));
for (const {block, size, mark} of held) {
  is(`a block of ${size} bytes`, block !== null && block % 16n === 0n && holds(large, block, size, mark + 1));
}
// It grows and shrinks, and keeps its beginning.
for (const one of held)
  for (const size of [one.size + 1, 2 * one.size + 100, Math.floor(one.size / 2), 3, 200000]) {
    const kept = Math.min(one.size, size);
    one.block = tried(large, large.rattle_realloc, one.block, BigInt(one.size), BigInt(size), 16n);
    is(`from ${one.size} to ${size} bytes`, one.block !== null && holds(large, one.block, kept, one.mark + 1));
    fill(large, one.block, size, one.mark + 1);
    one.size = size;
  }
for (const {block, size, mark} of held) is(`the block ${mark} after all others have grown`, holds(large, block, size, mark + 1));
// What is freed is used again: the memory stays as large as it is.
const before = large.memory.buffer.byteLength;
for (let time = 0; time < 1000; time++) large.ca_give(large.ca_take(1000000n));
is("a block that is freed is used again", large.memory.buffer.byteLength <= before + (4 << 20));
is("two blocks are two", large.ca_take(64n) !== large.ca_take(64n));
for (const size of [1n << 33n, 1n << 39n, (1n << 39n) + 1n, 1n << 62n, (1n << 64n) - 1n])
  is(`${size} bytes are refused`, large.ca_take(BigInt.asIntN(64, size)) === 0n);
is("what is refused takes nothing", large.ca_take(8n) !== 0n);

// With little memory a block that doesn't fit is refused, also where one grows, and the others stay.

const small = await begin(process.argv[3]), room = small.ca_take(16n), all = [];
for (let block; (block = small.ca_take(65000n)) !== 0n; all.push(block)) fill(small, block, 65000, all.length + 1);
is("some blocks fit, and not many", all.length > 2 && all.length <= 16);
is("the memory has its greatest size at most", small.memory.buffer.byteLength <= 33 << 16);
is("a block that can't grow is refused", tried(small, small.rattle_realloc, all[0], 65000n, 200000n, 16n) === null);
is("and stays as it was", all.every((block, place) => holds(small, block, 65000, place + 1)));
small.ca_give(all.pop());
is("after one is freed there is room for one", small.ca_take(65000n) !== 0n && small.ca_take(65000n) === 0n);
console.log(passed, failed);
