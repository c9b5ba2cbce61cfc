"use strict";

const LEVELS = ["the same", "letters", "accents", "case", "punctuation", "code points"];
const FIRST_WORDS = "cote côte coté côté lomo llama luz Llano co-op coop CO-OP naïve שלום سلام 日本".split(" ");

const at = (id) => document.getElementById(id);
const field = Object.fromEntries(["table", "language", "strength", "variable", "rules", "words", "other"].map((id) => [id, at(id)]));
const state = {
  languages: [], limits: {}, table: "", opened: null, fault: null, // the name of the table, the opened rules, and where the rules are at fault
  words: [], order: [], place: -1, chosen: null, drawn: "", // the list, the chosen row and its word, and which rows are drawn
  asked: 0, askedWord: 0, busy: 0, waiting: 0, // questions asked, questions without an answer yet, and the timer of the next one
};

/* An element with classes, attributes and children. Text is never parsed as markup. */
function make(name, { cls, text, kids, ...attributes } = {}) {
  const made = document.createElement(name);
  if (cls) made.className = cls;
  if (text !== undefined) made.textContent = text;
  for (const [key, value] of Object.entries(attributes)) if (value !== null && value !== undefined) made.setAttribute(key, value);
  if (kids) made.append(...kids);
  return made;
}

/* A character made visible: a mark on a dotted circle, and an open box for a blank or a control. */
function glyph(point) {
  if (point.kind === "M") return "\u25cc" + point.text;
  if (point.kind === "Z" || point.kind === "C") return "\u2423";
  return point.text;
}

const label = (point) => `${point.point}${point.name ? " " + point.name : ""}`;
const onCircle = (text) => (/^\p{M}/u.test(text) ? "\u25cc" + text : text);
const shown = (word) => (word === "" ? "(no character)" : onCircle(word));
const RIGHT_TO_LEFT = /^[^\p{L}]*[\p{sc=Hebr}\p{sc=Arab}\p{sc=Syrc}\p{sc=Thaa}\p{sc=Nkoo}\p{sc=Adlm}\p{sc=Samr}\p{sc=Mand}\p{sc=Rohg}]/u;
const isRightToLeft = (text) => RIGHT_TO_LEFT.test(text);
const levelName = (level) => (level ? `level ${level}: ${LEVELS[level]}` : LEVELS[0]);

/* ---- questions */

async function post(path, body, kind) {
  state.busy++;
  try {
    const answer = await fetch(path, { method: "POST", headers: { "Content-Type": kind }, body });
    if (!answer.ok) throw Object.assign(new Error(await answer.text()), { status: answer.status });
    return await answer.json();
  } finally {
    state.busy--;
  }
}

function listed(text) {
  return text.split("\n").filter((word) => word !== "");
}

function question() {
  const words = listed(field.words.value);
  const asked = { table: state.table, rules: currentRules(), strength: +field.strength.value, variable: +field.variable.value, words };
  if (state.chosen !== null) asked.chosen = state.chosen;
  if (state.chosen !== null && field.other.value !== "") asked.other = field.other.value;
  return asked;
}

/* Asks what the fields now say. The answer to an earlier question is dropped. */
async function ask() {
  const number = ++state.asked;
  const numberOfWord = ++state.askedWord;
  const asked = question();
  const body = JSON.stringify(asked);
  if (asked.words.length > state.limits.words || new Blob([body]).size > state.limits.bytes) {
    showWordsFault(`this is more than can be shown: ${state.limits.words} words, and ${state.limits.bytes} bytes of words and rules`);
    return;
  }
  try {
    const answer = await post("look", body, "application/json");
    if (number === state.asked) show(asked, answer, numberOfWord === state.askedWord);
  } catch (error) {
    if (number !== state.asked) return;
    showWordsFault(error.status === 410 ? "the table that was opened is gone: open it again" : "the explorer does not answer: start it again");
  }
}

function askSoon() {
  clearTimeout(state.waiting);
  state.waiting = setTimeout(() => { state.waiting = 0; ask(); }, 60);
}

/* ---- faults */

/* The place in a text of a line and a column. Both are counted from 1, columns in code points. */
function placeOf(text, line, column) {
  let place = 0;
  for (let n = 1; n < line; n++) place = text.indexOf("\n", place) + 1;
  for (let n = 1; n < column && place < text.length; n++) place += text.codePointAt(place) > 0xffff ? 2 : 1;
  return place;
}

function showRulesFault(fault) {
  const marks = at("rules-marks");
  const text = field.rules.value;
  field.rules.setAttribute("aria-invalid", fault ? "true" : "false");
  at("to-fault").hidden = !fault;
  state.fault = null;
  marks.replaceChildren();
  if (!fault) {
    at("rules-fault").textContent = "";
    return;
  }
  const begin = placeOf(text, fault.line, fault.column);
  const end = begin + (text.codePointAt(begin) > 0xffff ? 2 : 1);
  const character = text.slice(begin, end);
  const isSeen = begin < text.length && character !== "\n";
  marks.append(text.slice(0, begin), make("mark", { text: isSeen ? character : "\u00a0" }), text.slice(isSeen ? end : begin) + "\n");
  marks.scrollTop = field.rules.scrollTop;
  state.fault = begin;
  at("rules-fault").textContent = `Line ${fault.line}, column ${fault.column}${isSeen ? `, ${character}` : ""}: ${fault.cause}.`;
}

/* Puts the caret at the fault, and scrolls there. */
function goToFault() {
  field.rules.focus();
  field.rules.setSelectionRange(state.fault, state.fault);
  field.rules.scrollTop = at("rules-marks").querySelector("mark").offsetTop - field.rules.clientHeight / 2;
}

function showWordsFault(what) {
  field.words.setAttribute("aria-invalid", what ? "true" : "false");
  at("words-fault").textContent = what ? `${what[0].toUpperCase()}${what.slice(1)}.` : "";
}

/* ---- the list */

/* Of a list with more rows than ALL_ROWS only the visible ones are drawn, and MORE_ROWS at each end: laying out thousands is slow. */
const ALL_ROWS = 200;
const MORE_ROWS = 20;

function show(asked, answer, isOfChosen) {
  showRulesFault(answer.rules);
  showWordsFault(answer.words ? `word ${answer.words.line}, character ${answer.words.column}: ${answer.words.cause}` : "");
  document.body.classList.toggle("is-stale", !answer.order);
  if (!answer.order) {
    at("count").textContent = "This is the order before the fault.";
    return;
  }
  state.words = asked.words;
  state.order = answer.order;
  state.place = state.chosen === null ? -1 : state.order.findIndex(([number]) => state.words[number] === state.chosen);
  const same = state.order.filter(([, level]) => level === 0).length;
  at("count").textContent = `${state.order.length} words${same ? `, ${same} the same as the one before` : ""}`;
  drawRows(true);
  if (state.place < 0) choose(0);
  else if (isOfChosen) showWord(answer);
}

const wordAt = (place) => state.words[state.order[place][0]];

function rowOf(place) {
  const word = wordAt(place);
  const level = state.order[place][1];
  const kids = level === null ? [] : [make("span", { cls: "gap", "data-level": level, text: level ? `${level} ${LEVELS[level]}` : LEVELS[0] })];
  kids.push(make("span", { cls: "entry", dir: isRightToLeft(word) ? "rtl" : "ltr", text: shown(word), title: word.length > 30 ? word : null }));
  const row = make("div", {
    id: `row-${place}`, cls: "row", role: "option", kids,
    "aria-selected": place === state.place, "aria-setsize": state.order.length, "aria-posinset": place + 1,
  });
  row.style.setProperty("--place", place);
  return row;
}

/* Draws the visible rows, and the chosen one. `isNew` is true if the rows have changed. */
function drawRows(isNew) {
  const list = at("order");
  const count = state.order.length;
  if (isNew) at("rows").style.setProperty("--count", count);
  let first = 0, last = count;
  if (count > ALL_ROWS) {
    const height = at("rows").getBoundingClientRect().height / count;
    first = Math.max(0, Math.floor(list.scrollTop / height) - MORE_ROWS);
    last = Math.min(count, Math.ceil((list.scrollTop + list.clientHeight) / height) + MORE_ROWS);
  }
  const drawn = `${first} ${last} ${state.place}`;
  if (!isNew && drawn === state.drawn) return;
  state.drawn = drawn;
  const places = Array.from({ length: last - first }, (_, n) => first + n);
  if (state.place >= last) places.push(state.place);
  if (state.place >= 0 && state.place < first) places.unshift(state.place);
  at("rows").replaceChildren(...places.map(rowOf));
  if (state.place >= 0) list.setAttribute("aria-activedescendant", `row-${state.place}`);
  else list.removeAttribute("aria-activedescendant");
}

/* Chooses a row of the list, and asks what its word is made of. The other word is the next one in the list. */
function choose(place) {
  state.place = place < state.order.length ? place : -1;
  state.chosen = state.place < 0 ? null : wordAt(place);
  drawRows(false);
  at(`row-${place}`)?.scrollIntoView({ block: "nearest" });
  const beside = place + 1 < state.order.length ? place + 1 : place - 1;
  field.other.value = beside in state.order ? wordAt(beside) : "";
  askWord();
}

/* The order is known, so this asks only about the word. */
async function askWord() {
  const number = ++state.askedWord;
  const answer = await post("look", JSON.stringify({ ...question(), words: [] }), "application/json").catch(() => null);
  if (number === state.askedWord && answer?.order) showWord(answer);
}

function move(event) {
  const place = state.place;
  const last = state.order.length - 1;
  const to = { ArrowDown: place + 1, ArrowUp: place - 1, PageDown: place + 10, PageUp: place - 10, Home: 0, End: last }[event.key];
  if (to === undefined) return;
  event.preventDefault();
  if (last >= 0) choose(Math.min(Math.max(to, 0), last));
}

/* ---- the word */

function showWord(answer) {
  const word = answer.word;
  at("other-fault").textContent = answer.other ? `Character ${answer.other.column}: ${answer.other.cause}.` : "";
  at("word").hidden = state.chosen === null;
  if (state.chosen === null) return;
  at("word-title").replaceChildren(make("bdi", { dir: "auto", text: shown([...state.chosen].slice(0, state.limits.characters).join("")) }));
  for (const id of ["characters", "weights", "pair"]) at(id).tBodies[0].replaceChildren();
  for (const id of ["matches", "key", "packed", "verdict"]) at(id).replaceChildren();
  if (!word) {
    at("verdict").textContent = `Words of more than ${state.limits.characters} characters are not drawn.`;
    return;
  }
  at("characters").tBodies[0].append(...word.characters.map(characterRow));
  showMatches(word);
  at("weights").tBodies[0].append(...word.levels.map((row, n) => weightRow(n + 1, row)));
  showBytes(at("key"), word.key, true);
  showBytes(at("packed"), word.packed, false);
  if (answer.pair) showPair(answer.pair);
}

function characterRow(c) {
  const parts = c.parts.map((part) => `${glyph(part)} ${part.point}`).join("  ");
  return make("tr", { kids: [
    make("td", { cls: "glyph", kids: [make("bdi", { text: glyph(c) })] }),
    make("td", { cls: "point", text: c.point }), make("td", { text: c.name || "(no name)" }), make("td", { kids: [make("bdi", { text: parts })] }),
  ] });
}

const SVG = "http://www.w3.org/2000/svg";

/* The lines from the places of code points in the text to their places in the matches. A `far` one passes over other code points. */
function lines(word, isMirrored) {
  const svg = document.createElementNS(SVG, "svg");
  const count = word.decomposed.length;
  svg.setAttribute("viewBox", `0 0 ${count * 100} 100`);
  svg.setAttribute("preserveAspectRatio", "none");
  svg.setAttribute("aria-hidden", "true");
  svg.style.gridColumn = `1 / span ${count}`;
  const x = (column) => (isMirrored ? count - column - 0.5 : column + 0.5) * 100;
  let column = 0;
  for (const match of word.matches) {
    match.places.forEach((place, n) => {
      const path = document.createElementNS(SVG, "path");
      path.setAttribute("d", `M${x(place)} 0 C${x(place)} 55 ${x(column)} 45 ${x(column)} 100`);
      path.setAttribute("vector-effect", "non-scaling-stroke");
      if (n && place !== match.places[n - 1] + 1) path.setAttribute("class", "far");
      svg.append(path);
      column++;
    });
  }
  return svg;
}

function elementOf(text) {
  const parts = text.slice(1, -1).match(/[.*][0-9A-F]{4}/g);
  const kids = parts.map((part, n) => make("b", { "data-level": n + 1, text: (n ? "" : "[") + part + (n === parts.length - 1 ? "]" : "") }));
  return make("span", { cls: "element point", kids });
}

/* The kind of a match, in a few words. */
function kindOf(match) {
  if (!match.is_key) return "implicit";
  const isFar = match.places.some((place, n) => n && place !== match.places[n - 1] + 1);
  const what = match.points.length === 1 ? "key" : isFar ? "contraction, over a mark" : "contraction";
  return match.line ? `${what}, line ${match.line} of the rules` : what;
}

function showMatches(word) {
  const box = at("matches");
  box.dir = isRightToLeft(word.text) ? "rtl" : "ltr";
  box.parentElement.dir = box.dir; // so that a long word is scrolled to its beginning
  word.decomposed.forEach((point, n) => {
    const kids = [make("bdi", { cls: "glyph", text: glyph(point) }), make("br"), make("span", { cls: "point", text: point.point })];
    const made = make("span", { cls: "source", title: label(point), kids });
    made.style.gridColumn = `${n + 1}`;
    box.append(made);
  });
  if (word.decomposed.length) box.append(lines(word, box.dir === "rtl"));
  let column = 1;
  for (const match of word.matches) {
    const cls = `match${match.points.length > 1 ? " joined" : ""}${match.is_key ? "" : " implicit"}`;
    const text = match.points.length === 1 ? glyph(match.points[0]) : onCircle(match.points.map((point) => point.text).join(""));
    const made = make("div", { cls, kids: [
      make("bdi", { cls: "glyph", text }), make("span", { cls: "what", text: kindOf(match) }),
      make("div", { cls: "elements", kids: match.elements.map(elementOf) }),
    ] });
    made.style.gridColumn = `${column} / span ${match.points.length}`;
    column += match.points.length;
    box.append(made);
  }
}

function weightCell(weight, owner, differs) {
  const kids = owner === undefined ? [] : [make("bdi", { cls: "owner", text: ownerText(owner) })];
  return make("td", { cls: `weight${differs ? " differs" : ""}`, kids: [...kids, weight] });
}

const ownerText = (owner) => (/^[\p{Z}\p{C}]/u.test(owner) ? "\u2423" : onCircle(owner));

function weightRow(level, row) {
  const kids = [make("th", { scope: "row", cls: "level", text: `${level} ${LEVELS[level]}` })];
  kids.push(...row.weights.map((weight, n) => weightCell(weight, row.owners[n], false)));
  if (!row.weights.length) kids.push(make("td", { text: "nothing" }));
  return make("tr", { "data-level": level, kids });
}

/* A key with its levels apart. A sort key has weights of two bytes, and 0000 between its levels; both keys have code points of three bytes
 * at the fifth one. */
function showBytes(box, pieces, isSortKey) {
  pieces.forEach((piece, n) => {
    if (n && isSortKey) box.append(make("span", { cls: "between", text: "0000" }));
    const spaced = piece.replace(n === 4 ? /.{6}(?=.)/g : isSortKey ? /.{4}(?=.)/g : /.{2}(?=.)/g, "$& ");
    box.append(make("span", { cls: "piece", "data-level": n + 1, title: levelName(n + 1), text: spaced }), " ");
  });
}

/* ---- two words */

function side(word, row, same, isLast) {
  const kids = [make("th", { scope: "row", cls: "side", kids: [make("bdi", { dir: "auto", text: shown(word) })] })];
  const end = isLast ? Math.min(same + 1, row.weights.length) : row.weights.length;
  for (let n = 0; n < end; n++) kids.push(weightCell(row.weights[n], row.owners[n], isLast && n === same));
  if (isLast && same >= row.weights.length) kids.push(make("td", { cls: "weight differs", text: "ends" }));
  return kids;
}

function showPair(pair) {
  const sign = ["comes before", "is the same as", "comes after"][pair.order + 1];
  const why = pair.level ? `, by ${levelName(pair.level)}.` : ", at all levels.";
  at("verdict").append(make("bdi", { text: shown(pair.a) }), ` ${sign} `, make("bdi", { text: shown(pair.b) }), why);
  for (const { level, a, b, same } of pair.levels) {
    const isLast = level === pair.level;
    const head = make("th", { scope: "rowgroup", rowspan: 2, cls: "level", text: `${level} ${LEVELS[level]}` });
    at("pair").tBodies[0].append(
      make("tr", { "data-level": level, kids: [head, ...side(pair.a, a, same, isLast)] }),
      make("tr", { "data-level": level, kids: side(pair.b, b, same, isLast) }));
  }
}

/* ---- rules, tables and files */

/* A text as a text field shows it: all line ends are LF. */
const asShown = (text) => text.replace(/\r\n?/g, "\n");

/* The rules exactly as they were opened, byte for byte, unless they were changed in the field. */
function currentRules() {
  const text = field.rules.value;
  return state.opened !== null && asShown(state.opened.rules) === text ? state.opened.rules : text;
}

function openRules(rules, name) {
  state.opened = { rules, name };
  field.rules.value = rules;
  ask();
}

function chooseLanguage() {
  const found = state.languages.find((language) => language.tag === field.language.value);
  openRules(found ? found.rules : "", found ? `${found.tag}.rules` : "my.rules");
}

function saveRules() {
  const file = new Blob([currentRules()], { type: "text/plain" });
  const link = make("a", { href: URL.createObjectURL(file), download: state.opened?.name ?? "my.rules" });
  link.click();
  setTimeout(() => URL.revokeObjectURL(link.href), 10000);
}

async function openRulesFile(event) {
  const file = event.target.files[0];
  event.target.value = "";
  if (!file) return;
  try {
    if (file.size > 1 << 20) throw new Error();
    openRules(new TextDecoder("utf-8", { fatal: true, ignoreBOM: true }).decode(await file.arrayBuffer()), file.name);
    field.language.value = "";
  } catch {
    at("rules-fault").textContent = "This file is not UTF-8, or is larger than 1 MiB.";
  }
}

async function openTable(event) {
  const file = event.target.files[0];
  event.target.value = "";
  if (!file) return;
  const answer = await post("table", file, "text/plain").catch(() => ({ fault: { line: 0, column: 0, cause: "it is larger than a table can be" } }));
  const fault = answer.fault;
  at("table-fault").textContent = fault ? `${file.name}: ${fault.line ? `line ${fault.line}, column ${fault.column}: ` : ""}${fault.cause}.` : "";
  if (fault) return;
  field.table.append(make("option", { value: answer.name, text: file.name }));
  field.table.value = state.table = answer.name;
  ask();
}

async function begin() {
  const start = await (await fetch("start")).json();
  state.languages = start.languages;
  state.limits = start.limits;
  at("about").textContent = `libuca ${start.version}, decompositions of Unicode ${start.unicode}`;
  field.table.append(make("option", { value: "", text: start.table.split("/").pop(), title: start.table }));
  field.language.append(make("option", { value: "", text: "none, or my own rules" }));
  field.language.append(...start.languages.map(({ tag, name }) => make("option", { value: tag, text: name ? `${tag}: ${name}` : tag })));
  if (field.words.value === "") field.words.value = FIRST_WORDS.join("\n");
  ask();
}

for (const id of ["words", "rules"]) field[id].addEventListener("input", askSoon);
for (const id of ["strength", "variable"]) field[id].addEventListener("change", ask);
field.other.addEventListener("input", askWord);
field.rules.addEventListener("scroll", () => { at("rules-marks").scrollTop = field.rules.scrollTop; });
field.language.addEventListener("change", chooseLanguage);
field.table.addEventListener("change", () => { state.table = field.table.value; ask(); });
at("table-file").addEventListener("change", openTable);
at("rules-file").addEventListener("change", openRulesFile);
at("save").addEventListener("click", saveRules);
at("to-fault").addEventListener("click", goToFault);
at("ask").addEventListener("submit", (event) => event.preventDefault());
at("order").addEventListener("click", (event) => {
  const row = event.target.closest(".row");
  if (row) choose(+row.getAttribute("aria-posinset") - 1);
});
at("order").addEventListener("scroll", () => requestAnimationFrame(() => drawRows(false)));
addEventListener("resize", () => drawRows(false));
at("order").addEventListener("keydown", move);
begin();
