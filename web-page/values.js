// Rules, configurations and weights as values. What is refused, and in which words, is the same as in the Python package
// (rule_values.py and operands.py), which a test compares.
const DIGITS = "0123456789abcdef", NUMBERED = 6, NODES = 16, FARTHEST = 16, HEAVIEST = 255;

const many = number => number.toLocaleString("en");
const counted = (number, thing) => `${many(number)} ${thing}${number === 1 ? "" : "s"}`;
const valueOf = (word, states) => [...word].reduce((value, digit) => value * states + parseInt(digit, 16), 0);
const nameOf = (value, states, letters) => Array.from({length: letters}, (_, place) =>
  DIGITS[Math.floor(value / states ** (letters - 1 - place)) % states]).join("");
const wordsOf = (states, letters) => Array.from({length: states ** letters}, (_, value) => nameOf(value, states, letters));

// A text of TEXTS, in which {name} stands for a value.
const filled = (text, values) => text.replace(/\{(\w+)\}/g, (_, name) => values[name]);

// Why an operand is refused, and from where to where it is wrong.
class Refused extends Error {
  constructor(text, from = 0, to = from + 1) {
    super(text);
    this.span = [from, to];
  }
}

// A text as Python shows it, cut in its middle if it is long.
function short(text) {
  const shown = it => (it.includes("'") && !it.includes('"') ? `"${it}"` : `'${it.replaceAll("'", "\\'")}'`);
  const whole = shown(text.replaceAll("\\", "\\\\"));
  return whole.length <= 30 ? whole : `${whole.slice(0, 13)}...${whole.slice(-14)}`;
}

const FORM = /^(\d{1,2}):(\d{1,2}):(-?\d{1,2}):(?:t([0-9a-fA-F]*)|w(\d{1,39}))$/;
// What a text of either form begins with.
const BEGUN = [/^\d{0,39}/, /^(?:\d{1,2}(?::(?:\d{1,2}(?::(?:-?(?:\d{1,2}(?::(?:t[0-9a-fA-F]*|w\d{0,39})?)?)?)?)?)?)?)?/];

function refuse(kind, found, from, to, place = null) {
  throw new Refused(`rule fault 1 ${kind}${place === null ? "" : ` ${place}`}: ${TEXTS.faults[kind]}, ${found}`, from, to);
}

// The rule that a text says: {states, width, offset, table}, with the letters of the windows by their values.
function ruleOf(text) {
  const form = FORM.exec(text) ?? (/^\d{1,39}$/.test(text) ? FORM.exec(`2:3:-1:w${text}`) : null);
  if (!form) {
    const end = Math.max(...BEGUN.map(begun => begun.exec(text)?.[0].length ?? 0));
    const said = text === "" ? "is empty" : end === text.length ? "ends too early" : `is neither from place ${end} on`;
    refuse("form", `and ${short(text)} ${said}`, end, end + 1, end);
  }
  const [states, width, offset] = form.slice(1, 4).map(Number);
  lookAtShape(states, width, offset, form);
  if (form[4] === undefined) return ofNumber(states, width, offset, BigInt(form[5]), text);
  return ofDigits(states, width, offset, form[4], text);
}
function lookAtShape(states, width, offset, form) {
  const ends = [form[1].length, form[1].length + 1 + form[2].length, form[1].length + form[2].length + 2 + form[3].length];
  if (states < 2 || states > 16) refuse("states", `and not ${states}`, 0, ends[0]);
  if (width < 2 || width > 5) refuse("width", `and not ${width}`, ends[0] + 1, ends[1]);
  if (states ** (width - 1) > NODES)
    refuse("nodes", `and ${states} states and width ${width} have ${many(states ** (width - 1))}`, 0, ends[1]);
  if (offset < -FARTHEST || offset + width - 1 > FARTHEST)
    refuse("offset", `and not ${offset} of width ${width}`, ends[1] + 1, ends[2]);
}
function ofNumber(states, width, offset, number, text) {
  if (states > NUMBERED) refuse("kind", `and not ${states}`, 0, String(states).length);
  const base = BigInt(states), rules = base ** BigInt(states ** width);
  const back = [...text].reverse().join(""), behind = /^[01]{8}$/.test(text) ? "; if this is the row that Wolfram writes, from 111 to "
    + `000, its reverse stands behind STATES:WIDTH:OFFSET:t, as 2:3:-1:t${back}` : "";
  if (number >= rules)
    refuse("number", `from 0 to ${many(rules - 1n)}, and not ${many(number)}${behind}`, text.indexOf("w") + 1, text.length);
  const table = Array.from({length: states ** width}, (_, window) => Number(number / base ** BigInt(window) % base));
  return {states, width, offset, table};
}
function ofDigits(states, width, offset, digits, text) {
  const begin = text.length - digits.length, size = states ** width;
  if (digits.length !== size) {
    const wrong = begin + Math.min(digits.length, size);
    refuse("length", `and has ${counted(digits.length, "digit")} and needs ${many(size)}`, wrong, Math.max(wrong + 1, text.length));
  }
  const table = [...digits].map(digit => parseInt(digit, 16)), at = table.findIndex(letter => letter >= states);
  const place = begin + at;
  if (at >= 0) refuse("letter", `and ${digits[at]} at place ${place}, from 0 on, isn't below ${states}`, place, place + 1, place);
  return {states, width, offset, table};
}
const textOf = rule => `${rule.states}:${rule.width}:${rule.offset}:t${rule.table.map(it => DIGITS[it]).join("")}`;
const numberOf = rule => rule.table.reduceRight((number, letter) => number * BigInt(rule.states) + BigInt(letter), 0n);

// The mirrored rule, and the rule with other names of the letters.
function mirror(rule) {
  const table = wordsOf(rule.states, rule.width).map(word => rule.table[valueOf([...word].reverse().join(""), rule.states)]);
  return {...rule, offset: 1 - rule.width - rule.offset, table};
}
function renamed(rule, names) {
  const table = [];
  wordsOf(rule.states, rule.width).forEach((word, window) => {
    const value = [...word].reduce((sum, digit) => sum * rule.states + names[parseInt(digit, 16)], 0);
    table[value] = names[rule.table[window]];
  });
  return {...rule, table};
}
function permutations(letters) {
  if (letters.length < 2) return [letters];
  return letters.flatMap(first => permutations(letters.filter(it => it !== first)).map(rest => [first, ...rest]));
}
// All rules of the class of a rule, at its own offset, by their numbers.
function classOf(rule) {
  const names = permutations([...Array(rule.states).keys()]), members = new Map();
  for (const side of [rule, mirror(rule)])
    for (const order of names) {
      const one = {...renamed(side, order), offset: rule.offset};
      members.set([...one.table].reverse().map(letter => DIGITS[letter]).join(""), one);
    }
  return [...members.keys()].sort().map(key => members.get(key));
}

// What the letters weigh, as numbers, or null if the text is empty; and the operand of a command that says it.
function weightsOf(text, states) {
  if (text === "") return null;
  if (!/^-?\d{1,9}(,-?\d{1,9})*$/.test(text))
    throw new Refused(`weights are whole numbers with one comma between, as '0,1', and not ${short(text)}`);
  const numbers = text.split(",").map(Number), [least, most] = [Math.min(...numbers), Math.max(...numbers)];
  if (numbers.length !== states)
    throw new Refused(`notfit weights: there must be one weight for each of the ${states} letters, and there `
      + `${numbers.length === 1 ? "is" : "are"} ${numbers.length}`);
  if (most - least > HEAVIEST)
    throw new Refused(`weights are whole numbers of which the greatest is at most ${HEAVIEST} more than the least, and not `
      + `${many(least)} and ${many(most)}`);
  return numbers;
}
function weightsWord(numbers) {
  const less = Math.min(...numbers) >= 0 && Math.max(...numbers) <= HEAVIEST ? 0 : Math.min(...numbers);
  return numbers.map(number => number - less).join(",");
}

// Configurations: {left, middle, right}. The middle begins at cell 0.
const modulo = (number, by) => ((number % by) + by) % by;
const ringOf = word => ({left: word, middle: "", right: word});
const tailText = tail => `${tail.left}|${tail.middle}|${tail.right}`;
function letterAt({left, middle, right}, cell) {
  if (cell < 0) return left[modulo(cell, left.length)];
  return middle[cell] ?? right[(cell - middle.length) % right.length];
}
function cellsOf(tail, from, to) {
  return Array.from({length: Math.max(to - from, 0)}, (_, place) => letterAt(tail, from + place)).join("");
}
// A configuration of a rule's letters, from its text.
function tailOf(text, states) {
  const parts = text.split("|");
  if (parts.length !== 3 || !parts.every(part => /^[0-9a-fA-F]*$/.test(part)))
    throw new Refused(`tail is LEFT|MIDDLE|RIGHT, three words of hexadecimal digits, and not ${short(text)}`);
  const [left, middle, right] = parts;
  const cause = !left ? "leftempty" : !right ? "rightempty" : parts.some(part => part.length > 1024) ? "long" : null;
  if (cause) throw new Refused(`notfit tail ${cause}: ${TEXTS.causes[`tail ${cause}`]}`);
  const wrong = [...left + middle + right].find(digit => parseInt(digit, 16) >= states);
  if (wrong) throw new Refused(`notfit tail letter: each letter of a configuration must be below ${states}, and ${wrong} isn't`);
  return {left, middle, right};
}
