"use strict";
const ROWS = 50;
const MAGIC = 8;
const HASH = 32;

// SHA-256 (FIPS 180-4), since a page that is opened as a file may have none to call.
const K = new Uint32Array([
  0x428a2f98, 0x71374491, 0xb5c0fbcf, 0xe9b5dba5, 0x3956c25b, 0x59f111f1, 0x923f82a4, 0xab1c5ed5,
  0xd807aa98, 0x12835b01, 0x243185be, 0x550c7dc3, 0x72be5d74, 0x80deb1fe, 0x9bdc06a7, 0xc19bf174,
  0xe49b69c1, 0xefbe4786, 0x0fc19dc6, 0x240ca1cc, 0x2de92c6f, 0x4a7484aa, 0x5cb0a9dc, 0x76f988da,
  0x983e5152, 0xa831c66d, 0xb00327c8, 0xbf597fc7, 0xc6e00bf3, 0xd5a79147, 0x06ca6351, 0x14292967,
  0x27b70a85, 0x2e1b2138, 0x4d2c6dfc, 0x53380d13, 0x650a7354, 0x766a0abb, 0x81c2c92e, 0x92722c85,
  0xa2bfe8a1, 0xa81a664b, 0xc24b8b70, 0xc76c51a3, 0xd192e819, 0xd6990624, 0xf40e3585, 0x106aa070,
  0x19a4c116, 0x1e376c08, 0x2748774c, 0x34b0bcb5, 0x391c0cb3, 0x4ed8aa4a, 0x5b9cca4f, 0x682e6ff3,
  0x748f82ee, 0x78a5636f, 0x84c87814, 0x8cc70208, 0x90befffa, 0xa4506ceb, 0xbef9a3f7, 0xc67178f2,
]);
const schedule = new Uint32Array(64);

function compress(state, view, at) {
  const turned = (word, by) => (word >>> by) | (word << (32 - by));
  for (let i = 0; i < 16; i++) schedule[i] = view.getUint32(at + 4 * i);
  for (let i = 16; i < 64; i++) {
    const a = schedule[i - 15], b = schedule[i - 2];
    const low = turned(a, 7) ^ turned(a, 18) ^ (a >>> 3);
    const high = turned(b, 17) ^ turned(b, 19) ^ (b >>> 10);
    schedule[i] = schedule[i - 16] + low + schedule[i - 7] + high;
  }
  let [a, b, c, d, e, f, g, h] = state;
  for (let i = 0; i < 64; i++) {
    const one = (h + (turned(e, 6) ^ turned(e, 11) ^ turned(e, 25)) + ((e & f) ^ (~e & g)) + K[i]
      + schedule[i]) | 0;
    const two = ((turned(a, 2) ^ turned(a, 13) ^ turned(a, 22)) + ((a & b) ^ (a & c) ^ (b & c))) | 0;
    [h, g, f, e, d, c, b, a] = [g, f, e, (d + one) | 0, c, b, a, (one + two) | 0];
  }
  [a, b, c, d, e, f, g, h].forEach((word, i) => { state[i] += word; });
}

function sha256(...parts) {
  const length = parts.reduce((sum, part) => sum + part.length, 0);
  const padded = new Uint8Array(64 * Math.ceil((length + 9) / 64));
  let at = 0;
  for (const part of parts) { padded.set(part, at); at += part.length; }
  padded[length] = 0x80;
  const view = new DataView(padded.buffer);
  view.setUint32(padded.length - 8, Math.floor(length / 0x20000000));
  view.setUint32(padded.length - 4, length << 3);
  const state = new Uint32Array([
    0x6a09e667, 0xbb67ae85, 0x3c6ef372, 0xa54ff53a, 0x510e527f, 0x9b05688c, 0x1f83d9ab, 0x5be0cd19,
  ]);
  for (let block = 0; block < padded.length; block += 64) compress(state, view, block);
  const digest = new Uint8Array(HASH);
  const out = new DataView(digest.buffer);
  state.forEach((word, i) => out.setUint32(4 * i, word));
  return digest;
}

const hex = (bytes) => Array.from(bytes, (byte) => byte.toString(16).padStart(2, "0")).join("");
const words = (number) => number.toLocaleString("en-US");
const same = (one, other) => one.every((byte, i) => byte === other[i]);

// The ledger's bytes, and where each event's record begins and ends. A page may have none.
const ledger = Uint8Array.from(atob(document.getElementById("ledger").textContent), (c) => c.charCodeAt(0));
const kinds = JSON.parse(document.getElementById("kinds").textContent);
const chained = ledger[MAGIC - 1] === 0x32;
const places = [];
for (let at = MAGIC; at < ledger.length;) {
  places.push(at);
  at += 4 + ledger[at + 1] + 256 * ledger[at + 2] + 65536 * ledger[at + 3] + (chained ? HASH : 0);
}
const endOf = (event) => (event + 1 < places.length ? places[event + 1] : ledger.length);
const recordOf = (event) => ledger.subarray(places[event], endOf(event) - (chained ? HASH : 0));
const hashOf = (event) => (chained ? ledger.subarray(endOf(event) - HASH, endOf(event)) : new Uint8Array(0));

// A body's fields, from front to back.
class Body {
  constructor(content) {
    this.content = content;
    this.view = new DataView(content.buffer, content.byteOffset, content.length);
    this.at = 0;
  }

  take(length) {
    this.at += length;
    return this.content.subarray(this.at - length, this.at);
  }

  number(length) {
    this.at += length;
    const at = this.at - length;
    if (length === 8) return this.view.getBigUint64(at, true);
    if (length === 4) return this.view.getUint32(at, true);
    return length === 2 ? this.view.getUint16(at, true) : this.view.getUint8(at);
  }

  list(count, read) {
    return Array.from({ length: count }, () => read(this));
  }
}

const textOf = (body) => JSON.stringify(new TextDecoder().decode(body.take(body.number(1))));
const hexOf = (bytes) => hex(bytes) || "none";
// How each form of a field is read and shown, as `read-ledger.py` does.
const FORMS = {
  u8: (body) => body.number(1),
  u16: (body) => body.number(2),
  u32: (body) => body.number(4),
  u64: (body) => body.number(8),
  digits: (body) => body.number(4).toString(16).padStart(8, "0"),
  hash: (body) => hex(body.take(HASH)),
  b0_255: (body) => hexOf(body.take(body.number(1))),
  b0_32: (body) => hexOf(body.take(body.number(1))),
  b0_64k: (body) => hexOf(body.take(body.number(2))),
  text: textOf,
  texts: (body) => body.list(body.number(2), textOf).join(" ") || "all",
  path: (body) => body.list(body.number(1), (one) => hex(one.take(HASH))).join(" ") || "none",
  choice: (body, choices) => choices[body.number(1)],
};

// The numbers that events get by their order.
const numbers = {};
const numbersOf = places.map((at) => kinds[ledger[at]].numbers.map(([what, first]) => {
  numbers[what] = what in numbers ? numbers[what] + 1 : first;
  return `, ${what} ${numbers[what]}`;
}).join(""));

function wordsOf(event) {
  const record = recordOf(event);
  const kind = kinds[record[0]];
  const body = new Body(record.subarray(4));
  const said = kind.fields.map(([name, form, choices]) => ` ${name} ${FORMS[form](body, choices)}`);
  return kind.name + said.join("") + numbersOf[event];
}

// One sheet of a table at a time, so that a long one costs no more than a short one.
class Sheets {
  constructor(box, count, cellsOf) {
    this.body = box.querySelector("tbody");
    this.turn = box.querySelector(".turn");
    this.heads = Array.from(box.querySelectorAll("th"));
    this.count = count;
    this.cellsOf = cellsOf;
    this.show(0);
  }

  show(row, sought) {
    const last = Math.max(0, Math.ceil(this.count / ROWS) - 1);
    this.sheet = Math.min(last, Math.max(0, Math.floor(row / ROWS)));
    this.body.replaceChildren();
    const end = Math.min(this.count, (this.sheet + 1) * ROWS);
    for (let i = this.sheet * ROWS; i < end; i++) {
      const line = this.body.insertRow();
      if (i === sought) line.className = "sought";
      this.cellsOf(i, line);
      // On a narrow page a row is no line, and each of its cells has its own head.
      Array.from(line.cells).forEach((cell, at) => {
        cell.dataset.head = this.heads[at].textContent;
        if (this.heads[at].className) cell.classList.add(this.heads[at].className);
      });
    }
    this.showTurn(last);
  }

  showTurn(last) {
    this.turn.replaceChildren();
    if (last === 0) return;
    for (const [word, to] of [["first", 0], ["back", this.sheet - 1], ["on", this.sheet + 1], ["last", last]]) {
      const button = document.createElement("button");
      button.textContent = word;
      button.disabled = to < 0 || to > last || to === this.sheet;
      button.onclick = () => this.show(to * ROWS);
      this.turn.append(button);
    }
    this.turn.append(`sheet ${words(this.sheet + 1)} of ${words(last + 1)}, ${words(this.count)} rows`);
  }
}

// What the page's maker wrote is markup, in which names are escaped.
function fill(box) {
  const rows = JSON.parse(box.querySelector("script").textContent);
  let shown = rows;
  const sheets = new Sheets(box, rows.length, (i, line) => {
    for (const cell of shown[i]) line.insertCell().innerHTML = cell;
  });
  const pick = box.querySelector(".pick");
  if (pick) {
    const column = sheets.heads.findIndex((head) => head.textContent === "account");
    const nameIn = (cell) => new DOMParser().parseFromString(cell, "text/html").body.textContent;
    pick.oninput = () => {
      shown = pick.value ? rows.filter((row) => nameIn(row[column]) === pick.value) : rows;
      sheets.count = shown.length;
      sheets.show(0);
    };
  }
}

let broken = -1;
function fillEvents(box) {
  return new Sheets(box, places.length, (event, line) => {
    const cells = [event, places[event], wordsOf(event), hex(recordOf(event)), hex(hashOf(event))];
    for (const cell of cells) line.insertCell().textContent = cell;
    if (event === broken) line.cells[4].className = "bad";
  });
}

document.querySelectorAll(".sheets script").forEach((rows) => fill(rows.parentElement));
const status = document.getElementById("chain");
const asking = document.getElementById("seek");
let events = null;

function seek() {
  const found = /^#event-(\d+)$/.exec(location.hash);
  const event = found ? Number(found[1]) : places.length;
  if (event >= places.length) return;
  events.show(event, event);
  events.body.querySelector(".sought").scrollIntoView({ block: "center" });
}

// The chain of hashes, some thousand records at a time, so that the page can be read meanwhile.
let chain = sha256(ledger.subarray(0, MAGIC));
function check(from) {
  const to = Math.min(places.length, from + 4000);
  for (let event = from; event < to; event++) {
    chain = sha256(chain, recordOf(event));
    if (!same(chain, hashOf(event))) {
      broken = event;
      status.className = "broken";
      status.textContent = `The hash behind event ${event} is another than that of what stands before it.`;
      return events.show(event, event);
    }
  }
  if (to < places.length) {
    status.textContent = `Computing the hashes: ${words(to)} of ${words(places.length)}.`;
    return setTimeout(check, 0, to);
  }
  status.className = "holds";
  status.textContent = `The chain of hashes holds: this page's script computed each of them from the records below, ${words(places.length)} in all, up to the head.`;
}

function showEvents() {
  document.getElementById("no-events").remove();
  events = fillEvents(document.getElementById("events"));
  addEventListener("hashchange", seek);
  asking.number.max = places.length - 1;
  asking.onsubmit = (asked) => {
    asked.preventDefault();
    location.hash = `event-${Number(asking.number.value)}`;
    seek();
  };
  if (chained) check(0);
  else status.remove();
  seek();
}

if (ledger.length > 0) {
  showEvents();
} else {
  document.querySelectorAll(".with-events").forEach((part) => part.remove());
  status.textContent = "The events aren't on this page, so its script can't compute their hashes: report.py did.";
}
