// V8's answers for `canonicalize`: writes pairs of code points into the file of the second word, and whether the two
// match where case is ignored into that of the third. The first word is `i`, for 16-bit units, or `iu`, for code
// points.
const fs = require("fs");
const [flags, pairsFile, answersFile] = process.argv.slice(2);
const last = flags === "iu" ? 0x10ffff : 0xffff;
const isHalf = (c) => c >= 0xd800 && c <= 0xdfff;
const isTried = (c) => c >= 0 && c <= last && !(flags === "iu" && isHalf(c));
// V8 cannot judge characters that its version of Unicode lacks.
const isKnown = (c) => isHalf(c) || !/\p{Cn}/u.test(String.fromCodePoint(c));
const single = (text) => ([...text].length === 1 ? text.codePointAt(0) : -1);
const mapped = (text) => {
    const [lower, upper] = [text.toLowerCase(), text.toUpperCase()];
    return [lower, upper, upper.toLowerCase(), lower.toUpperCase()].map(single);
};

// The characters that JavaScript's mappings lead to or come from.
const near = new Map();
const join = (c, d) => near.set(c, (near.get(c) ?? new Set()).add(d));
for (let c = 0; c <= last; c++) {
    if (!isTried(c)) continue;
    for (const d of mapped(String.fromCodePoint(c))) if (isTried(d) && d !== c) join(c, d), join(d, c);
}

// Those near it, those near them, itself, the next one, and the one that differs in the bit of case in ASCII.
const partners = (c) => {
    const found = new Set([c, c + 1, c ^ 32].filter(isTried));
    for (const d of near.get(c) ?? []) {
        found.add(d);
        for (const e of near.get(d)) found.add(e);
    }
    return [...found].sort((a, b) => a - b);
};
const pairs = [];
for (let c = 0; c <= last; c++) {
    if (!isTried(c) || !isKnown(c)) continue;
    for (const d of partners(c)) if (isKnown(d)) pairs.push(c, d);
}
fs.writeFileSync(pairsFile, Buffer.from(Uint32Array.from(pairs).buffer));
const re = new RegExp("^([^])\\1$", flags);
const answers = Buffer.alloc(pairs.length / 2);
for (let i = 0; i < answers.length; i++) {
    answers[i] = re.test(String.fromCodePoint(pairs[2 * i], pairs[2 * i + 1])) ? 1 : 0;
}
fs.writeFileSync(answersFile, answers);
