"use strict";
const EVERY = 1000;
const RATES = ["H/s", "kH/s", "MH/s", "GH/s", "TH/s", "PH/s", "EH/s", "ZH/s"];
const UNITS = [[86400, "d"], [3600, "h"], [60, "min"], [1, "s"]];

const words = (number) => number.toLocaleString("en-US");
const coins = (satoshis) => (satoshis / 1e8).toLocaleString("en-US", { minimumFractionDigits: 8 });
const time = (at) => new Date(at * 1000).toISOString().slice(0, 19).replace("T", " ");
const part = (id) => document.getElementById(id);

function rate(found) {
  if (!found) return "not yet";
  let [hashes, place] = [found.hashes, 0];
  while (hashes >= 999.5 && place + 1 < RATES.length) { hashes /= 1000; place += 1; }
  const digits = hashes >= 99.95 || place === 0 ? 0 : hashes >= 9.995 ? 1 : 2;
  return `${hashes.toFixed(digits)} ${RATES[place]}`;
}

function span(seconds) {
  let left = Math.max(0, Math.floor(seconds));
  const parts = [];
  for (const [size, unit] of UNITS) {
    if (left < size && !(size === 1 && parts.length === 0)) continue;
    parts.push(`${Math.floor(left / size)} ${unit}`);
    left %= size;
  }
  return parts.slice(0, 2).join(" ");
}

const age = (seen) => (seen ? span(seen.age) + (seen.exact ? "" : " or more") : "none");

function showProvider(now) {
  const { here, since, exact } = now.provider;
  const when = since === null ? "" : `${exact ? " since " : " since before "}${time(since)} UTC`;
  const bad = now.pool_runs === false || !here;
  let said = here ? `The provider is here${when}.` : `The provider is GONE${when}: what miners find now builds on an old tip, and nobody is there to take it.`;
  if (!here && since === null) said = "The provider wasn't here yet.";
  if (now.pool_runs === false) {
    // A pool that was killed has left nobody's leaving in its ledger.
    said = `The pool DOESN'T RUN: no process has its ledger open.${here ? "" : ` ${said}`}`;
  }
  if (now.events === 0) said = "There is no ledger yet.";
  part("provider").textContent = said;
  part("provider").className = `banner ${bad ? "broken" : "holds"}`;
}

function showCards(now) {
  const named = now.accounts.filter((account) => account.miners > 0 && account.name);
  const limit = now.limit_in === null ? "" : `, full in ${span(now.limit_in)}`;
  const cards = [
    ["miners", words(now.miners)], ["accounts with miners", words(named.length)],
    ["hash rate, 10 min", rate(now.rates[10])], ["blocks", words(now.blocks)],
    ["credits", `${words(now.credits)} of ${words(now.credit_limit ?? 0)}${limit}`],
    ["tip's age", age(now.tip)], ["template's age", age(now.template)],
    ["template's height", now.template?.height ?? "unknown"],
    ["template's reward, BTC", now.template ? coins(now.template.reward) : "none"],
    ["BTC owed", coins(now.accounts.reduce((sum, account) => sum + account.owed, 0))],
  ];
  part("cards").replaceChildren(...cards.map(([word, value]) => {
    const card = document.createElement("div");
    card.append(Object.assign(document.createElement("dt"), { textContent: word }));
    card.append(Object.assign(document.createElement("dd"), { textContent: value }));
    return card;
  }));
}

function showMinutes(now) {
  const highest = Math.max(...now.minutes, 0);
  const rects = now.minutes.map((hashes, at) => {
    const rect = document.createElementNS("http://www.w3.org/2000/svg", "rect");
    const height = (100 * hashes) / (highest || 1);
    const place = 60 - now.minutes.length + at;
    for (const [name, value] of [["x", place], ["y", 100 - height], ["width", 0.86], ["height", height]]) {
      rect.setAttribute(name, value);
    }
    rect.setAttribute("class", "c0");
    return rect;
  });
  part("minutes").replaceChildren(...rects);
  part("measured").textContent = now.minutes.length
    ? `By the minute, over ${span(now.measured)}. The highest has ${rate({ hashes: highest })}.`
    : "Nothing was measured yet.";
}

// The rows of a table, each cell behind its head, as the page of `report.py` has them.
function fill(table, rows) {
  const heads = Array.from(table.querySelectorAll("th"));
  const body = table.querySelector("tbody");
  body.replaceChildren();
  for (const row of rows) {
    const line = body.insertRow();
    row.forEach((value, at) => {
      const cell = line.insertCell();
      cell.textContent = value;
      cell.dataset.head = heads[at].textContent;
      cell.className = heads[at].className;
    });
  }
}

function show(now) {
  showProvider(now);
  showCards(now);
  showMinutes(now);
  fill(part("accounts"), now.accounts.map((account) => [
    account.name || "no account yet", words(account.miners), rate(account.rates[1]), rate(account.rates[10]),
    rate(account.rates[60]), words(account.rates[60]?.shares ?? 0), coins(account.owed),
    coins(account.of_a_block_now),
  ]));
  fill(part("blocks"), now.last_blocks.map((block) => [
    block.event, block.height ?? "unknown", block.hash + (block.own_job ? " on a miner's own job" : ""),
    time(block.seen) + (block.exact ? "" : " or before"), block.account, coins(block.reward),
  ]));
  part("ledger").textContent = now.ledger;
  part("head").textContent = now.head;
}

async function renew() {
  try {
    const answer = await fetch("now.json");
    const now = await answer.json();
    if (now) show(now);
  } catch (error) {
    part("provider").textContent = `watch.py doesn't answer: ${error.message}`;
    part("provider").className = "banner broken";
  }
  setTimeout(renew, EVERY);
}
renew();
