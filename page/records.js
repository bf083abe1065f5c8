// The batch record, which the desk tells as a text.

const SECTIONS = { "CONTROL RECIPE": "lines", EVENTS: "events", CONSUMED: "consumed", PRODUCED: "produced", TOTALS: "totals", END: "end" };

export function readRecord(text) {
  const record = { text, head: [], lines: [], events: [], consumed: [], produced: [], totals: [], end: [] };
  const read = { head: (line) => line, lines: readRecipeLine, events: readStamped, consumed: readStamped, produced: readStamped,
    totals: readTotal, end: (line) => line };
  let section = "head";
  for (const line of text.split("\n")) {
    if (SECTIONS[line]) section = SECTIONS[line];
    else record[section].push(read[section](line));
  }
  record.released = readStamped("0 " + record.head[3]);
  namePhases(record);
  return record;
}

// Gives the events of phases the names that the phases have in the control recipe.
function namePhases({ lines, events }) {
  const phases = lines.filter((it) => it.kind === "phase");
  for (const it of events) {
    const [, number] = /^phase (\d+)$/.exec(it.what) || [], phase = phases[number - 1];
    if (phase) it.what += `: ${phase.path}`;
  }
}

// A line of the control recipe: an input or output has a material, an amount and a unit.
function readRecipeLine(line) {
  const [, kind, ...words] = line.trim().split(" ");
  if (kind === "in" || kind === "out") return { kind, def: words[0], amount: Number(words[1]), unit: words[2] };
  if (kind === "par") return { kind, name: words[0], value: words.slice(1).join(" ") };
  return { kind, phase: words[2], path: words.join(" ") };
}

// A line that ends with its moment, its operator and its note: `12 D-1 DOUGH 490 kg scrapped 10 at 240 by ben note burnt`.
function readStamped(line) {
  const [, seq, what, seconds, by, note] = /^ *(\d+) (.*?) at (\d+) by (.*?)(?: note (.*))?$/.exec(line) || [null, "", line, "0", "", ""];
  return { seq: Number(seq), what, words: what.split(" "), at: Number(seconds), by, note: note || "" };
}
function readTotal(line) {
  const [kind, def, , , , booked] = line.split(" ");
  return { kind, def, booked: Number(booked) };
}
