// Texts of JSON as elements of the page. Numbers stay as they are written, since a reply has whole numbers of 64 bits.

const TOKEN = /\s*("(?:[^"\\]|\\.)*"|[{}[\]:,]|[^\s{}[\]:,"]+)/gy;
const WIDE = 48;

// The value that a text spells: {members: [[key, value], ..]}, {items: [value, ..]}, or {plain: the text of a string, a number or a name}.
// Throws a SyntaxError where the text is no JSON.
export function readJson(text) {
  JSON.parse(text);
  const tokens = [...text.trim().matchAll(TOKEN)].map((found) => found[1]);
  let at = 0;
  const list = (end, one) => {
    const made = [];
    for (at += 1; tokens[at] !== end; ) {
      made.push(one());
      if (tokens[at] === ",") at += 1;
    }
    at += 1;
    return made;
  };
  const value = () => {
    if (tokens[at] === "{") return { members: list("}", () => [tokens[at], ((at += 2), value())]) };
    if (tokens[at] === "[") return { items: list("]", value) };
    return { plain: tokens[at++] };
  };
  return value();
}

// The text of a value on one line.
export function oneLine(value) {
  if (value.plain !== undefined) return value.plain;
  const listed = value.items ? value.items.map(oneLine) : value.members.map(([key, it]) => `${key}: ${oneLine(it)}`);
  if (!listed.length) return value.items ? "[]" : "{}";
  return value.items ? `[${listed.join(", ")}]` : `{ ${listed.join(", ")} }`;
}

function span(kind, text) {
  const made = document.createElement("span");
  made.className = kind;
  made.textContent = text;
  return made;
}

const marks = (text) => span("mark", text);

// What a value is written as: elements, and for each new line how far in it begins.
function* pieces(value, indent, key = "") {
  if (value.plain !== undefined) {
    yield span(key === '"@id"' ? "id" : value.plain.startsWith('"') ? "string" : "number", value.plain);
    return;
  }
  const isList = value.items !== undefined;
  const parts = isList ? value.items.map((it) => ["", it]) : value.members;
  if (!parts.length) {
    yield marks(isList ? "[]" : "{}");
    return;
  }
  const isSubject = !isList && parts.length > 1 && parts[0][0] === '"@id"';
  const isPlain = parts.every(([name, it]) => !name && it.plain !== undefined);
  const isBroken = isSubject || (!isPlain && oneLine(value).length + indent > WIDE);
  yield marks(isList ? "[" : "{ ");
  if (isList && isBroken) yield indent + 2;
  for (const [place, [name, it]] of parts.entries()) {
    if (place) yield marks(isBroken ? "," : ", ");
    if (place && isBroken) yield indent + 2;
    if (name) yield span("key", name);
    if (name) yield marks(": ");
    yield* pieces(it, indent + 2, name);
  }
  if (isList && isBroken) yield indent;
  yield marks(isList ? "]" : " }");
}

// An element that shows a value. Each line of it is one element, which is as far in as its text, and what of it doesn't fit is further in.
export function shown(value) {
  const made = document.createElement("pre");
  const begin = (indent) => {
    const line = span("row", "");
    line.style.paddingLeft = `${indent + 4}ch`;
    made.append(line);
  };
  begin(0);
  for (const piece of pieces(value, 0)) {
    if (typeof piece === "number") begin(piece);
    else made.lastChild.append(piece);
  }
  if (value.members?.[0]?.[0] === '"@id"') made.querySelector(".id")?.classList.add("name");
  return made;
}
