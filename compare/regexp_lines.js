// Writes strings, values and matches as the program `use_regexp_tool` reads and writes them.
const unitsOf = (text) => [...Array(text.length).keys()].map((i) => text.charCodeAt(i));

const quotedUnit = (unit) => {
  if (unit === 34 || unit === 92) return `\\${String.fromCharCode(unit)}`;
  return unit >= 32 && unit < 127 ? String.fromCharCode(unit) : `\\u${unit.toString(16).padStart(4, "0")}`;
};

const quoted = (text) => `"${unitsOf(text).map(quotedUnit).join("")}"`;

const json = (value) => {
  if (typeof value === "string") return quoted(value);
  if (Array.isArray(value)) return `[${value.map(json).join(",")}]`;
  if (value === undefined || value === null) return "null";
  if (typeof value !== "object") return String(value);
  return `{${Object.entries(value).map(([name, of]) => `${quoted(name)}:${json(of)}`).join(",")}}`;
};

const parts = (m) => ({ match: [...m], groups: m.groups ? { ...m.groups } : null });

const matched = (m) => m && { index: m.index, ...parts(m), ...(m.indices && { indices: parts(m.indices) }) };

module.exports = { json, matched, quoted };
