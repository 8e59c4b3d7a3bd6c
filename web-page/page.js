// The page: its form, the address that says what is shown, and all commands.
const EXAMPLES = ["110", "184", "30", "90", "170", "204", "232", "60", "106", "2:4:-1:t0101001110101011", "3:2:0:t012120201"];
const CLICKED = 64, SHOWN = 100000;             // windows of a table that is drawn; letters of an output that is shown
const byId = id => document.getElementById(id);

// Workers. The report and the commands have one each, so that rules can be typed while a long command runs.

const packed = Uint8Array.from(atob(byId("module").textContent.trim()), letter => letter.charCodeAt(0));
const module = new Response(new Blob([packed]).stream().pipeThrough(new DecompressionStream("gzip"))).arrayBuffer();
const source = URL.createObjectURL(new Blob([byId("worker").textContent], {type: "text/javascript"}));

class Caller {
  constructor() { this.begin(); }
  begin() {
    const worker = this.worker = new Worker(source), waiting = this.waiting = new Map();
    worker.onmessage = ({data}) => { waiting.get(data.id)?.(data); waiting.delete(data.id); };
    worker.onerror = fault => tell(`The module can't be used: ${fault.message}`);
    module.then(bytes => worker.postMessage({module: bytes}));
    this.count = 0;
  }
  call(message) {
    const {worker, waiting} = this, id = ++this.count;
    return new Promise((done, failed) => {
      waiting.set(id, answer => (answer.fault ? failed(new Error(answer.fault)) : done(answer)));
      module.then(() => worker.postMessage({id, ...message}));
    });
  }
  // Ends the worker with all that it does, and begins another one.
  stop() {
    this.worker.terminate();
    this.waiting.forEach(answer => answer({fault: "stopped"}));
    this.begin();
  }
}
const reports = new Caller(), commands = new Caller();
function ask(words, json = true, input = "") {
  return reports.call({kind: "run", words, json, input});
}
const tell = text => { byId("told").textContent = text; };

// What is shown, and its address

let shown = null, turn = 0, typing = false;

const encoded = text => encodeURIComponent(text).replaceAll("%3A", ":").replaceAll("%2C", ",");
const addressOf = (text, weights = "") => `#rule=${encoded(text)}${weights ? `&weights=${encoded(weights)}` : ""}`;
function leads(text, weights = "") {
  return make("a", {href: addressOf(text, weights)}, code(text));
}
function fromAddress() {
  const said = new URLSearchParams(location.hash.slice(1));
  if (!said.has("rule")) return false;
  typing = false;
  byId("text").value = said.get("rule");
  byId("weights").value = said.get("weights") ?? "";
  go();
  return true;
}
// A rule that is typed letter by letter is one step of the history.
function typed() {
  record(typing ? "replaceState" : "pushState");
  typing = true;
  return go();
}
function clicked(text) {
  typing = false;
  byId("text").value = text;
  record("pushState");
  return go();
}
const record = how => history[how](null, "", addressOf(byId("text").value.trim(), byId("weights").value.trim()));

// Decides the rule of the form, and shows its report.
async function go() {
  const mine = ++turn, begun = performance.now(), text = byId("text").value.trim(), weights = byId("weights").value.trim();
  const operands = read(text, weights);
  if (!operands) return;
  tell("It is being decided.");
  const answer = await ask(["decide", ...operands.words]), {finding} = JSON.parse(answer.reply);
  if (mine !== turn) return;
  if (!finding) return refuseBy(new Refused(`The program says: ${answer.reply}`, 0, text.length), byId("text"));
  const report = {...finding.report, given: operands.given, weights: operands.given ?? finding.report.weights};
  showTable(operands.rule);
  showBadges(report);
  const late = [];
  try {
    const find = async (word, ...more) => JSON.parse((await ask([word, report.rule, ...more])).reply).finding ?? null;
    late.push(...await new Sections(report, find, message => reports.call(message)).all());
    if (mine === turn) await showElsewhere(report, operands, answer.reply);
  } catch (fault) {
    late.push(make("p", {className: "no", textContent: fault.message}));
  }
  if (mine !== turn) return;
  shown = {report, rule: operands.rule};
  byId("report").replaceChildren(...late);
  byId("found").replaceChildren();
  document.title = `${titleOf(report)} · Foursaspen`;
  const verdicts = Object.keys(VERDICTS).map(key => `${key} ${yesOrNo(report, key)}`).join(", ");
  byId("told").replaceChildren(make("span", {className: "heard", textContent: `${verdicts}. `}),
    `The report took ${answer.ms.toFixed(1)} ms, and this page ${(performance.now() - begun).toFixed(0)} ms.`);
}
// The operands of the form: its rule, its weights if they aren't the letters' own values, and the words for both. Null if one is
// refused.
function read(text, weights) {
  let field = byId("text");
  for (const it of ["text", "weights"]) byId(it).removeAttribute("aria-invalid");
  byId("fault").replaceChildren();
  try {
    const rule = ruleOf(text);
    field = byId("weights");
    const numbers = weightsOf(weights, rule.states), words = numbers ? [text, weightsWord(numbers)] : [text];
    return {rule, words, given: numbers?.some((weight, letter) => weight !== letter) ? numbers : null};
  } catch (fault) {
    refuseBy(fault, field);
    return null;
  }
}
// Says why an operand is refused, with the digits that are wrong underlined.
function refuseBy(fault, field) {
  if (!(fault instanceof Refused)) throw fault;
  const text = field.value.trim(), [from, to] = fault.span;
  const wrong = make("pre", {}, text.slice(0, from), make("mark", {textContent: text.slice(from, to) || " "}), text.slice(to));
  byId("fault").replaceChildren(make("p", {textContent: `${fault.message}.`}), ...(field === byId("text") ? [wrong] : []));
  field.setAttribute("aria-invalid", "true");
  for (const id of ["badges", "report", "same", "found"]) byId(id).replaceChildren();
  shown = null;
  tell("");
}
function showBadges(report) {
  byId("badges").replaceChildren(...Object.keys(VERDICTS).map(key =>
    make("a", {className: `badge ${yesOrNo(report, key)}`, href: `#${key}`}, `${key}: `,
      make("b", {textContent: yesOrNo(report, key)}))));
}
// The windows, each a button that changes its letter.
function showTable(rule) {
  byId("states").value = rule.states;
  byId("width").value = rule.width;
  byId("offset").value = rule.offset;
  if (rule.table.length > CLICKED) return byId("table").replaceChildren(note(`Its table has ${rule.table.length} letters.`));
  const values = [...rule.table.keys()];
  if (byId("wolfram").checked) values.reverse();
  byId("table").replaceChildren(...values.map((value, place) => {
    const label = filled(LABELS.window, {window: nameOf(value, rule.states, rule.width), letter: DIGITS[rule.table[value]]});
    const button = make("button", {type: "button", ariaLabel: label, title: label});
    const canvas = drawWindow(rule, value);
    button.innerHTML = canvas.svg().replace(/ role="img" aria-label="[^"]*" width="\d+" height="\d+" viewBox="[^"]*"/,
      ` aria-hidden="true" width="${canvas.width + 1}" height="${canvas.height + 1}"`);
    button.onclick = () => {
      const table = rule.table.map((letter, at) => (at === value ? (letter + 1) % rule.states : letter));
      clicked(textOf({...rule, table})).then(() => byId("table").children[place]?.focus());
    };
    return button;
  }));
}
// A rule of the chosen shape: with the same table if that has the right number of letters, or else with zeros.
function reshape() {
  const [states, width, offset] = ["states", "width", "offset"].map(id => Number(byId(id).value)), old = shown?.rule;
  const table = old?.states === states && old.width === width ? old.table : Array(states ** width).fill(0);
  return clicked(states ** (width - 1) > NODES ? `${states}:${width}:${offset}:t` : textOf({states, width, offset, table}));
}

// The certificates, and how to get the same answer elsewhere

async function showElsewhere(report, {words}, json) {
  const made = [];
  for (const [word, version] of [["certify", 2], ["brief", 3]]) {
    const {reply} = await ask([word, ...words], false), {code: status} = await ask(["check"], false, reply);
    mustFit(status === 0, `the certificate of ${word}`, report.rule);
    const name = `${report.rule.slice(0, 60).replaceAll(":", "_")}_version_${version}.json`;
    const link = saves(reply, name, `the certificate of version ${version}, ${many(reply.length)} bytes`);
    made.push(say(link, ", which ", code("check"), " has accepted"));
  }
  const quoted = words.map(word => `"${word}"`).join(", ");
  const link = location.href.replace(/#.*/, "") + addressOf(words[0], byId("weights").value.trim());
  byId("same").replaceChildren(say("Each ", term("certificate"), " has all that is needed to check these verdicts without trust in "
    + "this page: ", code("checkers/judge.py"), " judges it."), ...made, copied("The command", `./ca decide ${words.join(" ")}`),
  copied("In Python", `import foursaspen; print(foursaspen.decide(${quoted}))`), copied("A link to this answer", link),
  folded("The report as JSON", copied("JSON", json)));
}
function saves(text, name, label) {
  return make("a", {download: name, href: URL.createObjectURL(new Blob([text], {type: "application/json"})), textContent: label});
}
// A text with a button that copies it.
function copied(name, text) {
  const shownText = make("code", {textContent: text});
  const button = make("button", {type: "button", textContent: "copy", ariaLabel: `copy: ${name}`});
  button.onclick = async () => {
    try {
      await navigator.clipboard.writeText(text);
      button.textContent = "copied";
    } catch {                                   // the browser keeps the clipboard to itself
      getSelection().selectAllChildren(shownText);
      button.textContent = "selected";
    }
  };
  return say(`${name}: `, shownText, " ", button);
}

// A preimage, a certificate, and all commands

async function showPreimage(event) {
  event.preventDefault();
  if (!shown) return;
  const {report, rule} = shown, put = byId("found");
  try {
    const tail = tailOf(byId("tail").value.trim(), rule.states);
    const {finding} = JSON.parse((await ask(["preimage", report.rule, tailText(tail)])).reply), {preimage, gap} = finding;
    const said = preimage ? [code(tailText(preimage.tail)), ` is a preimage. Its middle begins at cell ${preimage.at}.`]
      : ["There is no preimage: no word has the image ", code(gap.word), ", which is a part of it."];
    const graph = new Graph(rule), fits = preimage ? isPreimage(graph, preimage, tail) : isOrphan(graph, gap.word);
    mustFit(fits, "the preimage", report.rule);
    const long = preimage ? preimage.tail.middle.length + preimage.tail.left.length + preimage.tail.right.length : gap.word.length;
    put.replaceChildren(say(said), drawn(report, "preimage", {long, found: {asked: {tail, preimage, gap}}}));
  } catch (fault) {
    put.replaceChildren(make("p", {className: "no", textContent: `${fault.message}.`}));
  }
}
async function showCheck(file) {
  if (!file) return;
  byId("checked").replaceChildren(note(`Checking ${file.name}.`));
  const input = new Uint8Array(await file.slice(0, 4194305).arrayBuffer());
  const {code: status, reply} = await commands.call({kind: "run", words: ["check"], input});
  const cause = reply.split(" ")[1]?.trim(), why = status === 1 ? TEXTS.reasons[cause] : null;
  const rule = status === 0 ? reply.split(/\s/)[1] : null, weights = /^weights (.*)$/m.exec(reply)?.[1];
  byId("checked").replaceChildren(make("p", {className: status === 0 ? "yes" : "no",
    textContent: `${file.name} is ${status === 0 ? "accepted" : "not accepted"}${why ? `: ${why}` : ""}.`}),
  make("pre", {textContent: reply, tabIndex: 0}), ...(rule ? [say("Its rule is ", leads(rule, weights), ".")] : []));
  byId("checking").scrollIntoView();
}
async function command(event) {
  event.preventDefault();
  const words = byId("line").value.trim().split(/\s+/).filter(Boolean), begun = performance.now(), put = byId("output");
  const status = text => { byId("status").textContent = text; };
  const seconds = () => ((performance.now() - begun) / 1000).toFixed(0);
  const wait = () => status(`It is being carried out, for ${seconds()} seconds. You can stop it.`);
  byId("stop").disabled = false;
  const clock = setInterval(wait, 1000);
  wait();
  try {
    const {code: number, reply, ms} = await commands.call({kind: "run", words, input: byId("input").value});
    status(`Status ${number}, ${many(new Blob([reply]).size)} bytes, ${ms.toFixed(1)} ms.`);
    const whole = saves(reply, "output.txt", "save the whole output"), cut = reply.length - SHOWN;
    put.replaceChildren(reply.slice(0, SHOWN), ...(cut > 0 ? [`\n(${many(cut)} more: `, whole, ")"] : []));
    put.hidden = false;
  } catch (fault) {
    status(fault.message === "stopped" ? "It was stopped." : fault.message);
  } finally {
    clearInterval(clock);
    byId("stop").disabled = true;
  }
}
function showHelp() {
  const word = byId("line").value.trim().split(/\s+/)[0], help = TEXTS.help[word];
  byId("section").innerHTML = help ?? `There is no command ${escaped(word || "without a name")}.`;
  byId("help").firstElementChild.textContent = help ? `Help for ${word}` : "Help";
}

for (let it = 2; it <= 16; it++) byId("states").append(make("option", {textContent: it}));
for (let it = 2; it <= 5; it++) byId("width").append(make("option", {textContent: it}));
byId("examples").append(...EXAMPLES.map(text => leads(text)));
byId("form").onsubmit = event => { event.preventDefault(); typing = false; go(); };
byId("text").oninput = byId("weights").oninput = typed;
for (const id of ["states", "width", "offset"]) byId(id).onchange = reshape;
byId("wolfram").onchange = () => shown && showTable(shown.rule);
byId("ask").onsubmit = showPreimage;
byId("command").onsubmit = command;
byId("line").oninput = showHelp;
byId("stop").onclick = () => commands.stop();
byId("file").onchange = ({target}) => showCheck(target.files[0]);
addEventListener("dragover", event => { event.preventDefault(); document.querySelector("main").classList.add("over"); });
addEventListener("dragleave", () => document.querySelector("main").classList.remove("over"));
addEventListener("drop", event => {
  event.preventDefault();
  document.querySelector("main").classList.remove("over");
  showCheck(event.dataTransfer.files[0]);
});
// A link within the page leaves the address as it is, which says what is shown.
addEventListener("click", event => {
  const link = event.target.closest?.("a[href^='#']"), target = link && byId(link.getAttribute("href").slice(1));
  if (!target) return;
  event.preventDefault();
  target.scrollIntoView();
  target.focus({preventScroll: true});
});
addEventListener("hashchange", fromAddress);
addEventListener("unhandledrejection", fault => tell(fault.reason.message));
document.head.append(make("style", {textContent: nightStyle()}));
showHelp();
if (!fromAddress()) go();
