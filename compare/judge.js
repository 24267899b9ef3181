// Answers each line of JSON [pattern, flags, text] with a line of JSON: null where V8 refuses the pattern, else the ranges of
// all matches and of their groups, in bytes of the text in UTF-8, as `regress-tool` prints them. `+` stands behind the
// offset of a character that a place cuts in half.
function offsetsOf(text) {
  const offsets = [];
  let bytes = 0;
  for (const character of text) {
    offsets.push(String(bytes));
    if (character.length === 2) offsets.push(`${bytes}+`);
    bytes += Buffer.byteLength(character);
  }
  return [...offsets, String(bytes)];
}

function judge(pattern, flags, text) {
  let re;
  try {
    re = new RegExp(pattern, flags.replace("uv", "v") + "gd");
  } catch {
    return null;
  }
  const offsets = offsetsOf(text);
  const written = (range) => (range ? `${offsets[range[0]]}..${offsets[range[1]]}` : "-");
  return [...text.matchAll(re)].map((found) => found.indices.map(written).join(" ")).join("\n");
}

require("readline")
  .createInterface({ input: process.stdin })
  .on("line", (line) => console.log(JSON.stringify(judge(...JSON.parse(line)))));
