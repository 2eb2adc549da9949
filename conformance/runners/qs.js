// The conformance cases by qs for JavaScript, each call with the options that come nearest to the notation.
//   NODE_PATH=/usr/share/nodejs node conformance/runners/qs.js [--differences]
//
// Trees and data are compared in a normal form: a list is the map of 0, 1, 2 .. to its elements, a scalar is its text, and the order of a map's keys doesn't
// count. Nothing at the top counts as no value. A case that is an error here agrees if qs throws. What is written has to be the same pieces between `&`s, in any
// order. Left out is what qs has no form for: shapes, limits, bytes that aren't UTF-8, numbers that JavaScript rounds, a scalar that is written alone, and query
// mode where that differs from form mode, which qs has alone: what is written, and inputs with escaped brackets.
'use strict';
const fs = require('fs');
const path = require('path');
let qs;
try {
  qs = require('qs');
} catch {
  console.log('qs for JavaScript is not installed, and left out');
  process.exit(0);
}

const { features, cases } = JSON.parse(fs.readFileSync(path.join(__dirname, '../cases.json')));
const FORMATS = { indexed: 'indices', empty_indexed: 'brackets', unindexed: 'repeat' };

function normal(value) {
  if (value === null || value === undefined) return 'null';
  if (typeof value !== 'object') return JSON.stringify(String(value));
  return `{${Object.keys(value).sort().map((key) => `${JSON.stringify(key)}:${normal(value[key])}`).join()}}`;
}

const pieces = (text) => text.split('&').sort().join('&');
const isRounded = (value) => (typeof value === 'number' ? !Number.isSafeInteger(value) : value !== null && typeof value === 'object' && Object.values(value).some(isRounded));

// What is wanted, or undefined if qs has no form for the case.
function wanted(it) {
  if ('written' in it && !('shape' in it)) {
    return it.mode === 'query' || it.data === null || typeof it.data !== 'object' || isRounded(it.data) ? undefined : pieces(it.written);
  }
  if (!('input' in it) || (it.shape ?? 'any') !== 'any' || 'max_length' in it || 'max_pairs' in it) return undefined;
  if ('tree_encoded' in it || it.error === 'not_utf8' || (it.mode === 'query' && /%5[bd]/i.test(it.input))) return undefined;
  return 'error' in it ? 'an error' : normal(it.tree === undefined ? it.data : it.tree);
}

function found(it) {
  if (!('input' in it)) {
    return pieces(qs.stringify(it.data, { arrayFormat: FORMATS[it.array_format], strictNullHandling: true }));
  }
  try {
    const parsed = qs.parse(it.input, { depth: it.depth, strictNullHandling: true, allowSparse: true, allowPrototypes: true, parameterLimit: Infinity });
    return normal(Object.keys(parsed).length ? parsed : null);
  } catch {
    return 'an error';
  }
}

const counts = Object.fromEntries(Object.keys(features).map((feature) => [feature, [0, 0, 0]]));
for (const it of cases) {
  const count = counts[it.feature];
  const [want, got] = [wanted(it), wanted(it) === undefined ? undefined : found(it)];
  count[0] += want !== undefined && got === want;
  count[1] += want !== undefined;
  count[2] += want === undefined;
  if (process.argv[2] === '--differences' && got !== want) console.log(`${it.feature}/${it.name}: ${it.input ?? JSON.stringify(it.data)}: ${got}, and not ${want}`);
}
console.log(`qs ${require('qs/package.json').version}, node ${process.version}\n${'feature'.padEnd(12)} agreed     of  left out`);
for (const [feature, [agreed, all, out]] of Object.entries(counts)) {
  console.log(feature.padEnd(12) + String(agreed).padStart(7) + String(all).padStart(7) + String(out).padStart(10));
}
