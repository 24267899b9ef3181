// Makes the table of `crates/use_regexp_tool`: `node compare/regexp_table.js FOLDER` writes FOLDER/stdin, scripted lines, and
// FOLDER/stdout, what V8 answers to each of their calls, as that program writes it.
//
// Most lines are a product: each pattern with each set of flags, on each text, where `lastIndex` takes its places in turn.
// A line calls one object several times, so that a call also begins where the one before left `lastIndex`. Behind these
// stand lines on what a product has not: templates, limits, sources, flags, names, indices and numbers that are coerced.
// Where docs/PROFILE.md says that V8 is not the standard, or that a pattern means something else here, there is no line.
// The last lines are malformed. JSON.parse judges which strings are; the answers to the others are written by hand.
const fs = require("fs");
const { json, matched, quoted } = require("./regexp_lines.js");

const lines = [];
const answers = [];

// What `replaceWith` puts in place of a match: where it begins, its text and those of its groups.
const told = (...words) => {
  const at = words.findIndex((word) => typeof word === "number");
  return `<${words[at]}:${words.slice(0, at).map((word) => word ?? "-").join("|")}>`;
};

const methods = {
  exec: (re, text) => matched(re.exec(text)),
  test: (re, text) => re.test(text),
  search: (re, text) => re[Symbol.search](text),
  match: (re, text) => (re.global ? re[Symbol.match](text) : matched(re[Symbol.match](text))),
  matchAll: (re, text) => [...re[Symbol.matchAll](text)].map(matched),
  replace: (re, text, template) => re[Symbol.replace](text, template),
  replaceWith: (re, text) => re[Symbol.replace](text, told),
  split: (re, text, limit) => re[Symbol.split](text, limit),
  toString: (re) => re.toString(),
  source: (re) => re.source,
  flags: (re) => re.flags,
  lastIndex: (re) => re.lastIndex,
};

// Whether the pattern can stand between slashes in a line.
const isLiteral = (source) => source !== "" && /^(?:[ -.0-Z^-~]|\\[ -~]|\[(?:[ -Z^-~]|\\[ -~])*\])*$/.test(source);

function add(source, flags, lastIndex, ...calls) {
  const pattern = isLiteral(source) && /^[a-z]*$/.test(flags) ? `/${source}/${flags}` : `${quoted(source)} ${quoted(flags)}`;
  const words = calls.map(([method, ...given]) => [method, ...given.map(json)].join(" "));
  lines.push([pattern, ...(lastIndex === 0 ? [] : [`@${lastIndex}`]), ...words].join(" "));
  let re;
  try {
    re = new RegExp(source, flags);
  } catch {
    answers.push('{"error":"SyntaxError"}');
    return;
  }
  re.lastIndex = lastIndex;
  for (const [method, ...given] of calls) {
    const value = methods[method](re, ...given);
    answers.push(`{"value":${json(value)},"lastIndex":${re.lastIndex}}`);
  }
}

// ---- Each method with each set of flags

const FLAGS = ["", "g", "y", "gy", "u", "gu", "uy", "guy"];
const TEXTS = ["abcab", "", "\u{1F600}a\u{1F600}\u{1F601}", "\ude00a\ud83d\ude00\ud83d", "b\nab"];
const PATTERNS = ["a", "", "a*", ".", "(b)|(c)|a", "(?<x>a)(?<y>b)?", "\\ude00", "[^a]", "\u{1F600}", "a$|^", "(?=a)", "(?<=a)b|\u{1F600}"];
const LASTS = [0, 1, 2, 0, 4, 9];
const TEMPLATE = "[$1|$&|$<x>|$`|$']";

let turn = 0;
for (const source of PATTERNS) {
  for (const flags of FLAGS) {
    for (const text of TEXTS) {
      const last = LASTS[turn % LASTS.length];
      const scripts = [
        [["exec", text], ["exec", text], ["test", text]],
        [["test", text], ["match", text], ["exec", text]],
        [["matchAll", text], ["search", text]],
        [["replace", text, TEMPLATE], ["exec", text]],
        [["replaceWith", text], ["lastIndex"]],
        [["split", text], ["split", text, 2]],
        [["match", text], ["match", text]],
      ];
      add(source, flags, last, ...scripts[turn % scripts.length]);
      turn += 1;
    }
  }
}

// ---- Each method with each of the 64 sets of flags, on a text in which each flag has a say

const ALL_FLAGS = [..."gimsuy"].reduce((sets, flag) => sets.concat(sets.map((set) => set + flag)), [""]);
const MIXED = "a\nB\u{1F600}\nb\n";

for (const flags of ALL_FLAGS) {
  for (const [source, last] of [["^(?<n>b)?.?", 2], ["(?<n>b)$|.", 4]]) {
    add(source, flags, last, ["exec", MIXED], ["test", MIXED], ["exec", MIXED], ["lastIndex"]);
    add(source, flags, last, ["match", MIXED], ["match", MIXED], ["search", MIXED]);
    add(source, flags, last, ["matchAll", MIXED], ["replace", MIXED, "[$1|$&|$<n>|$`|$']"], ["replaceWith", MIXED]);
    add(source, flags, last, ["split", MIXED], ["split", MIXED, 3], ["source"], ["flags"], ["toString"]);
  }
}

// ---- An index within a pair, at the end, and past it

for (const source of [".", "", "a", "\\ude00", "\ud83d", "(?=a)", "$", "^"]) {
  for (const flags of ["g", "y", "gu", "uy"]) {
    for (const last of [1, 3, 4, 40]) {
      add(source, flags, last, ["exec", "\u{1F600}a"], ["exec", "\u{1F600}a"]);
    }
    add(source, flags, 1, ["matchAll", "\u{1F600}a"], ["replace", "\u{1F600}a", "-"], ["split", "\u{1F600}a"]);
  }
}

// ---- Templates

const TEMPLATES = [
  "$$", "$&$&", "$`", "$'", "$1", "$2", "$3", "$0", "$00", "$01", "$02", "$10", "$11", "$12", "$20", "$99", "$001", "$1a", "$",
  "a$", "$x", "$$1", "$$$1", "$<a>", "$<b>", "$<c>", "$<a", "$<>", "$<a>>", "$<\u00e9>", "\u{1F600}$&", "$<$1>",
];
for (const template of TEMPLATES) {
  add("(b)(x)?", "", 0, ["replace", "abcb", template]);
  add("(?<a>b)(?<b>x)?", "g", 0, ["replace", "abcb", template]);
  add("b", "y", 1, ["replace", "abcb", template]);
}
add("(a)(b)(c)(d)(e)(f)(g)(h)(i)(j)(k)", "", 0, ["replace", "abcdefghijk", "$11-$10-$1-$12-$011"]);

// ---- Splits

for (const flags of ["", "g", "y", "u", "iu"]) {
  for (const [source, text] of [
    ["", "ab\u{1F600}"], [",", "a,b,,c,"], ["(,)|(;)", "a,b;c"], ["a*", "baac"], ["$", "ab"], ["^", "ab"], ["(?=b)", "abab"], ["X", "axbxc"],
    ["(a)|b", "b"], ["\\b", "to be"], ["(?:)|\u{1F600}", "\u{1F600}\u{1F601}"], ["a", "a"], ["()", "ab"],
  ]) {
    add(source, flags, 1, ["split", text], ["split", text, 0], ["split", text, 1], ["split", text, 3], ["lastIndex"]);
  }
  add("a?", flags, 0, ["split", ""]);
  add("a", flags, 0, ["split", ""], ["split", "", 0]);
}

// ---- Sources and flags

for (const source of ["", "/", "a/b", "[/]", "\\/", "\n", "\\\n", "\r", "\u2028", "\u2029", "[\n]", "\\\u2028", "[\\]/]", "]/", "[[]/", "\\\\/", "\\\r", "[\\\n]", "\u00e9\u{1F600}"]) {
  add(source, "g", 0, ["source"], ["toString"], ["flags"]);
}
for (const flags of ["yusmig", "ig", "gg", "uu", "x", "G", "v ", "gi m", "smy", "\u00e9", "giuG"]) {
  add("A.$", flags, 0, ["flags"], ["toString"], ["match", "a\nb\na\n"]);
}

// ---- Lines, case and dots, patterns that are refused, and those that are read by units

for (const flags of ["", "i", "m", "s", "im", "is", "ms", "ims", "g", "gims", "gimsuy", "my", "gm"]) {
  add("^b.?$", flags, 0, ["match", "B\nb\n\nb"], ["replaceWith", "B\nb\n\nb"], ["search", "a\nb"]);
}
for (const source of ["[\u{1F337}-\u{1F338}]", "\u{1F600}+", "^.$", "[^\u{1F600}]", "\u{1F600}{2}", "(", "a**", "[b-a]", "(?<n>a)(?<n>b)", "(?<n>a)\\k<n>", "\\ud83d\\ude00", "\\u{1F600}", "{", "a{2,1}"]) {
  for (const flags of ["", "u", "gu"]) {
    if (source === "\\u{1F600}" && flags === "") continue;
    add(source, flags, 0, ["exec", "\u{1F600}\ude00aa"], ["match", "\u{1F337}\u{1F600}\u{1F600}"]);
  }
}

// ---- Indices, with each set of the other flags

for (const flags of ALL_FLAGS) {
  const letters = [...flags];
  letters.splice(letters.length / 2, 0, "d");
  add("(?<n>b)?(.)??$", letters.join(""), 2, ["exec", MIXED], ["match", MIXED], ["matchAll", MIXED], ["flags"], ["toString"]);
}
for (const [source, flags] of [["(a)|(?<x>b)|(?<y>)", "dg"], ["(\u{1F600})(?=(a))?", "dgu"], ["(.)\\1", "dy"], ["", "d"], ["a", "dd"]]) {
  add(source, flags, 1, ["exec", "\u{1F600}aab"], ["matchAll", "\u{1F600}aab"], ["replace", "\u{1F600}aab", "[$1]"], ["split", "\u{1F600}aab"]);
}

// ---- Numbers that are coerced: `lastIndex` where the next call writes it, and limits

const NUMBERS = [
  -1, -0.5, 0.5, 0.999, 1.5, 2.999, -1e300, 1e300, 1e-300, 2 ** 31, 2 ** 32, -(2 ** 32), 2 ** 32 + 1, -(2 ** 32) + 2, 2 ** 32 + 1.5, 2 ** 33 + 2, 2 ** 53 - 1,
  2 ** 53, -(2 ** 53) + 3, 2 ** 64, 2 ** 64 + 2 ** 12, (2 ** 52 + 1) * 2 ** 31, -(2 ** 52 + 1) * 2 ** 31, 2 ** 85, 2 ** 127 + 2 ** 75, 2 ** 128, 2 ** 200, NaN, Infinity, -Infinity,
];
for (const number of NUMBERS) {
  for (const flags of ["g", "y"]) add("a", flags, number, ["exec", "aaba"], ["exec", "aaba"]);
  add("a", "gy", number, ["test", "aaba"], ["match", "aaba"], ["lastIndex"]);
  add("b", "", 0, ["split", "abababa", number], ["split", "", number]);
}

// ---- Malformed lines

const answerLine = (line, ...given) => (lines.push(line), answers.push(...given));
const malformed = (why) => `{"error":"malformed line: ${why}"}`;

const STRINGS = [
  ["\\u12", "invalid escape in a string"], ["\\u12g4", "invalid escape in a string"], ["\\u", "invalid escape in a string"], ["\\ud83d\\ude0", "invalid escape in a string"],
  ["\\q", "invalid escape in a string"], ["\\'", "invalid escape in a string"], ["\\x41", "invalid escape in a string"], ["\\U0041", "invalid escape in a string"],
  ["a\tb", "control character in a string"], ["\u0001", "control character in a string"], ["\\u00e9\\/\\\\\\\"\\b\\f\\n\\r\\t\\uD83D"], ["\u007f\u00e9"],
];
for (const [inside, why] of STRINGS) {
  let text;
  try {
    text = JSON.parse(`"${inside}"`);
  } catch {
    answerLine(`/./ source split "${inside}" source`, '{"value":".","lastIndex":0}', malformed(why));
    continue;
  }
  answerLine(`/(?:)/ split "${inside}"`, `{"value":${json(text.split(/(?:)/))},"lastIndex":0}`);
}
answerLine('/a/ exec "a', malformed("unclosed string"));
answerLine('/a/ exec', malformed("no string"));
answerLine('/a/ replace "a" source', malformed("no string"));
answerLine('"a" exec "a"', malformed("no string"));
answerLine('/a/ exce "a"', malformed("no such call"));
answerLine('/a/ "a"', malformed("no such call"));
answerLine("a", malformed("no pattern"));
answerLine("/a", malformed("no pattern"));
answerLine("");
answerLine(" \t");
for (const number of ["", "x", "1x", "--1", "1e", "-", "nan", "-inf", "+Infinity", "0x10"]) answerLine(`/a/ @${number} source`, malformed("no number"));
answerLine('/a/ split "a" -', malformed("no number"));
answerLine('  /a/ \t @1e0 \t test  "a" lastIndex', '{"value":true,"lastIndex":1}', '{"value":1,"lastIndex":1}');

// ---- What the README shows

add("(?<y>\\d{4})", "y", 3, ["exec", "on 2018"], ["exec", "on 2018"]);
add("(?<year>\\d{4})-(?<month>\\d\\d)", "g", 0, ["replace", "2018-06 or 2019-01", "$<month>/$<year>"]);

const folder = process.argv[2];
fs.writeFileSync(`${folder}/stdin`, lines.map((line) => `${line}\n`).join(""));
fs.writeFileSync(`${folder}/stdout`, answers.map((answer) => `${answer}\n`).join(""));
console.log(`${lines.length} lines, ${answers.length} answers`);
