// node v8.js PATTERN FLAGS FILE: the number of matches, and the nanoseconds of the fastest of some passes.
const [pattern, flags, file] = process.argv.slice(2);
const text = require("fs").readFileSync(file, "utf8");
const re = new RegExp(pattern, flags + "g");
const PASSES = 5;

function count() {
  let matches = 0;
  re.lastIndex = 0;
  for (let found; (found = re.exec(text)) !== null; matches++) {
    if (found[0] === "") re.lastIndex++;
  }
  return matches;
}

let fastest = Infinity;
let matches = 0;
for (let pass = 0; pass < PASSES; pass++) {
  const start = process.hrtime.bigint();
  matches = count();
  fastest = Math.min(fastest, Number(process.hrtime.bigint() - start));
}
console.log(`${matches} matches, ${fastest} ns`);
