// Compares searches of 16-bit units with V8: `node compare/units.js BINARY [--count N] [--seed N]`.
//
// BINARY is a build of the crate `use_regexp_tool`. N patterns (5000) of the whole language are made from a seed, half of
// them with the flag `u`, and each is searched for in texts of 16-bit units, which have pairs and lone surrogates. A
// difference that comes under an entry of `docs/PROFILE.md` is counted. Each other difference is listed, and then the
// status is 1.
const { spawnSync } = require("child_process");
const { json, matched, quoted } = require("./regexp_lines.js");

const TEXTS_OF_A_PATTERN = 4;
const LISTED_AT_MOST = 20;
const FLAGS = ["", "", "i", "i", "m", "s", "is", "u", "u", "iu", "iu", "mu", "su", "isu"];
const UNITS = [
  ..."aAbBcsSkK1_- \n\u00e9\u00c9\u017f\u212a\u00df\u1e9e\u03a3\u03c3\u03c2\u00b5\u01c4\u01c5\u01c6\u2028",
  ..."\ud83c\udf37\ud801\udc00\udc28",
  ...["\u{1F337}", "\u{1F338}", "\u{10400}", "\u{10428}"],
];
const ATOMS = [
  ...UNITS.filter((unit) => unit !== "\n"),
  ...". . \\d \\D \\w \\W \\s \\S ^ $ \\b \\B \\1 \\2 \\k<n> \\n \\0 \\01 \\8 \\12 \\cJ \\c \\x41 \\x4 \\/ \\- \\a \\p { } ]".split(" "),
  ..."\\ud83c \\udf37 \\ud83c\\udf37 \\u{1f337} \\u{d83c} \\u0041 \\u004 \\ud801\\udc00".split(" "),
  ..."\\p{Lu} \\p{L} \\P{L} \\P{Lu} \\p{Ll} \\p{Any} \\p{Cs} \\p{Script=Greek} \\p{scx=Deseret} \\p{Lowercase} \\p{Alphabetic}".split(" "),
];
const MEMBERS = [
  ...UNITS.filter((unit) => unit !== "-"),
  ..."a-c A-Z 0-9 \\d \\w \\W \\s \\S \\D \\b \\n - ^ . ( $ \\1 \\01 \\cJ \\c \\c1 \\d-z \\k \\- \\] \\x41".split(" "),
  ..."\\ud83c \\udf37 \\u{1f337} \\ud83c\\udf37 \ud83c-\udf37 \u{10400}-\u{1F337} \\ud800-\\udbff \\udc00-\\udfff".split(" "),
  ..."\\p{Lu} \\P{Lu} \\p{Ll} \\P{L} \\p{Lowercase}".split(" "),
];
const QUANTIFIERS = "* + ? *? +? ?? {2} {1,} {0,2} {1,2}? {0} {2,1} {,2} {1".split(" ");
const OPENINGS = "( ( ( (?: (?: (?<n> (?<m> (?<\u00e9> (?= (?! (?<= (?<! (?i:".split(" ");

// Numbers from a seed (mulberry32).
function chanceFrom(seed) {
  let state = seed >>> 0;
  return () => {
    state = (state + 0x6d2b79f5) >>> 0;
    let t = Math.imul(state ^ (state >>> 15), state | 1);
    t ^= t + Math.imul(t ^ (t >>> 7), t | 61);
    return ((t ^ (t >>> 14)) >>> 0) / 4294967296;
  };
}

class Maker {
  constructor(seed) {
    this.chance = chanceFrom(seed);
  }

  below(bound) {
    return Math.floor(this.chance() * bound);
  }

  of(list) {
    return list[this.below(list.length)];
  }

  several(most, list) {
    return Array.from({ length: this.below(most + 1) }, () => this.of(list)).join("");
  }

  atom() {
    if (this.chance() < 0.3) return `[${this.of(["", "", "^"])}${this.several(4, MEMBERS)}]`;
    return this.of(ATOMS);
  }

  pattern(depth) {
    const kind = this.chance();
    if (depth <= 0 || kind < 0.35) return this.atom();
    if (kind < 0.6) return this.pattern(depth - 1) + this.pattern(depth - 1);
    if (kind < 0.7) return `${this.pattern(depth - 1)}|${this.pattern(depth - 1)}`;
    if (kind < 0.85) return `${this.of(OPENINGS)}${this.pattern(depth - 1)})${this.chance() < 0.5 ? this.of(QUANTIFIERS) : ""}`;
    return this.atom() + this.of(QUANTIFIERS);
  }

  row() {
    const source = this.pattern(1 + this.below(4));
    const flags = this.of(FLAGS);
    const texts = Array.from({ length: TEXTS_OF_A_PATTERN }, () => this.several(8, UNITS));
    return { source, flags: `dg${flags}`, texts };
  }
}

// The answers of V8 to a row: one for each text, or null where it refuses the pattern.
function judged({ source, flags, texts }) {
  try {
    new RegExp(source, flags);
  } catch {
    return null;
  }
  return texts.map((text) => [...text.matchAll(new RegExp(source, flags))].map(matched));
}

// The value in a line that the program wrote, or the line if it has none.
function valueOf(line) {
  try {
    return json(JSON.parse(line).value);
  } catch {
    return line;
  }
}

const isWithinPair = (text, index) => /^[\ud800-\udbff][\udc00-\udfff]$/.test(text.slice(index - 1, index + 1));

// A range that may have U+1DF95, which folds to U+00DF since Unicode 18.
const RANGE_PAST_FFFF = /-(?:[\ud800-\udbff]|\\u[d{])/;

// The entry of docs/PROFILE.md that a difference comes under, if it does.
function entryOf({ source, flags }, text, there) {
  if (!flags.includes("u")) return null;
  if (there.some((found) => isWithinPair(text, found.index))) return "matches between the halves of a character";
  if (flags.includes("i") && /[\u00df\u1e9e]/.test(text) && RANGE_PAST_FFFF.test(source)) return "a character of a later Unicode than that of V8";
  if (/\\[1-9k]/.test(source) && /[\ud800-\udbff][\udc00-\udfff]/.test(text)) return "a reference before a character past U+FFFF";
  return null;
}

function options(words) {
  const given = { binary: words[0], count: 5000, seed: 1 };
  for (let at = 1; at + 1 < words.length; at += 2) given[words[at].replace("--", "")] = Number(words[at + 1]);
  return given;
}

function main() {
  const { binary, count, seed } = options(process.argv.slice(2));
  const maker = new Maker(seed);
  const rows = Array.from({ length: count }, () => maker.row());
  const lines = rows.map(({ source, flags, texts }) => [quoted(source), quoted(flags), ...texts.map((text) => `matchAll ${quoted(text)}`)].join(" "));
  const run = spawnSync(binary, { input: `${lines.join("\n")}\n`, encoding: "utf8", maxBuffer: 1 << 30 });
  const here = run.stdout.split("\n");
  const entries = {};
  const others = [];
  let at = 0;
  let taken = 0;
  for (const row of rows) {
    const there = judged(row);
    const isRefused = here[at] === '{"error":"SyntaxError"}';
    if ((there === null) !== isRefused) others.push(`${isRefused ? "refused" : "taken"} here alone: ${quoted(row.source)} ${row.flags}`);
    taken += there === null ? 0 : 1;
    for (const [number, text] of isRefused ? [] : row.texts.entries()) {
      const answer = valueOf(here[at + number]);
      if (there === null || answer === json(there[number])) continue;
      const entry = entryOf(row, text, there[number]);
      if (entry) entries[entry] = (entries[entry] ?? 0) + 1;
      else others.push(`${quoted(row.source)} ${row.flags} on ${quoted(text)}\n  here ${answer}\n  V8   ${json(there[number])}`);
    }
    at += isRefused ? 1 : row.texts.length;
  }
  console.log(`${count} patterns, of which V8 takes ${taken}`);
  for (const [entry, times] of Object.entries(entries)) console.log(`${String(times).padStart(5)}  ${entry}`);
  for (const other of others.slice(0, LISTED_AT_MOST)) console.log(other);
  console.log(`${others.length} other differences`);
  process.exit(others.length === 0 && at + 1 === here.length ? 0 : 1);
}

main();
