// Writes for each place of a list, PATH<Tab>LINE<Tab>COLUMN, the scope that the grammar of VS Code gives it.
// The words are the grammar's file and the list. Each pattern is tried at each place of a line, as VS Code does: the one
// that matches first is taken, of several at one place the one that stands first.
'use strict';
const fs = require('fs');
const [file, places] = process.argv.slice(2);
const patterns = JSON.parse(fs.readFileSync(file, 'latin1')).patterns.map((pattern) => ({
  rule: new RegExp(pattern.match, 'dg'), name: pattern.name || '', captures: pattern.captures || {},
}));

function scopesOf(line) {
  const scopes = new Array(line.length).fill('');
  let at = 0;
  while (at <= line.length) {
    let best = null;
    for (const pattern of patterns) {
      pattern.rule.lastIndex = at;
      const found = pattern.rule.exec(line);
      if (found && (best === null || found.index < best.found.index)) best = { pattern, found };
    }
    if (best === null) break;
    const { pattern, found } = best;
    const end = found.index + found[0].length;
    scopes.fill(pattern.name, found.index, end);
    for (const [number, { name }] of Object.entries(pattern.captures)) scopes.fill(name, ...found.indices[number]);
    at = Math.max(end, at + 1);
  }
  return scopes;
}

const lines = new Map();
for (const row of fs.readFileSync(places, 'utf8').split('\n').filter(Boolean)) {
  const [path, line, column] = row.split('\t');
  if (!lines.has(path)) lines.set(path, fs.readFileSync(path, 'latin1').split('\n').map(scopesOf));
  console.log(lines.get(path)[line - 1][column - 1]);
}
