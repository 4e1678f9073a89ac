// Replays runs in node as the page does, and prints the name of each that doesn't agree: `node page/test.js`, with a JSON list of
// runs on the standard input, each with name, source, listing, memory, outcome, profile, sizes and the interpreter's
// events, and the listing of the source with its form.
'use strict';
const fs = require('fs');
const path = require('path');
const vm = require('vm');

const load = names => {
  const text = names.map(name => fs.readFileSync(path.join(__dirname, name), 'utf8')).join('\n');
  return vm.runInThisContext(text + '\n({ readListing, readMemory, readProfile, runCode, liveBefore, disagreement, packetGroups, checkFields, readForm, walkLive, followCode, readSource, readEvents, linksOf, readLayouts, keyOf, actsOf, actsFor })');
};
const page = load(['engine.js', 'packet.js', 'source.js', 'values.js', 'names.js']);
for (const fault of page.checkFields()) console.log(fault);

// The form in the listing of a source, with its remarks, and as a page has it.
const formRows = run => [...run.form.matchAll(/^ {8}; (.*)$/gm)].map(it => it[1]).filter(it => !it.startsWith('#'));
const readFormOf = run => page.readForm(formRows(run).map(it => it.replace(/#.*/, '').replace(/[ v]/g, '')).join('\n'));

// The values that are live by the page have to be those in the form's remarks, and each label's code has to follow its form.
function checkForm(run, listing) {
  const rows = formRows(run), forms = readFormOf(run);
  const found = [...forms.values()].flatMap(form => {
    const lives = [];
    page.walkLive(form, (_, live) => lives.unshift(live.size === 0 ? '' : [...live].sort().join(' ')));
    return [[...form.params].sort().join(' '), ...lives];
  });
  const told = rows.filter(it => it.includes('#')).map(it => it.replace(/^.*# [0-9]+:/, '').trim().split(' ').sort().join(' '));
  const differs = told.findIndex((it, n) => it !== found[n]);
  if (told.length !== found.length || differs >= 0) console.log(run.name + ': at point ' + differs + ' of ' + told.length + ' live is ' + told[differs] + ', by the page ' + found[differs]);
  const notes = page.followCode(listing, forms);
  const lost = listing.code.findIndex((_, place) => notes[place] === undefined);
  if (lost >= 0) console.log(run.name + ': the code at ' + lost + " isn't followed beside the form");
  const unknown = notes.filter(note => note && note.row && note.row.op === 'read' && [...note.writes.values()].some(word => !word.value));
  if (unknown.length > 0) console.log(run.name + ': the read at ' + unknown[0].place + ' has a word that is no value');
}
// Each write of the run has to come from one place of the source, and where the interpreter notes all, each access and the end.
// Each has to be among those places which may do what the instruction does; what no run came to has such places, too.
function checkLinks(run, listing, ran) {
  const exceptions = new Map([...run.sizes.matchAll(/^exception `(\w+)`: `raised ([0-9]+)`/gm)].map(it => [Number(it[2]), it[1]]));
  const source = page.readSource(run.source), events = page.readEvents(run.events), links = page.linksOf(listing.code, source, ran, events, 3000, exceptions);
  const acts = page.actsOf(source, page.readLayouts(run.sizes)), forms = readFormOf(run), notes = page.followCode(listing, forms);
  if (!links.isKnown) console.log(run.name + ": the accesses aren't those of the interpreter");
  listing.code.forEach((it, place) => {
    const isAccess = it.op === 'write' || events.hasAll && it.op === 'read', isWanted = ran.counts[place] > 0 && (events.hasAll && it.op === 'halt' || isAccess && it.kind !== 'spill');
    const found = page.actsFor(acts, it, exceptions, notes[place], forms), [at] = links.places.get(place) || [];
    if (page.keyOf(it, exceptions) !== '' && (found.length === 0 || at !== undefined && !found.includes(at))) console.log(run.name + ': the instruction at ' + place + ' is none of ' + found + (at === undefined ? '' : ', but ' + at));
    if (isWanted && (!links.places.has(place) || links.places.get(place).size !== 1)) console.log(run.name + ': the instruction at ' + place + ' has no place in the source');
  });
  for (const [place, found] of links.places) {
    const [at] = found, it = listing.code[place], word = it.op !== 'halt' ? it.memory : it.exception > 0 ? 'raise' : '';
    if (!source.text.startsWith(word, at)) console.log(run.name + ': the instruction at ' + place + ' has the wrong place in the source');
  }
}
for (const run of JSON.parse(fs.readFileSync(0, 'utf8'))) {
  const listing = page.readListing(run.listing), profile = page.readProfile(run.profile);
  const ran = page.runCode(listing.code, page.readMemory(run.memory), profile.steps, 20000);
  const found = page.disagreement(listing, ran, run.outcome, profile);
  if (found) console.log(run.name + ': ' + found);
  if (page.liveBefore(listing.code)[0].some((bits, part) => part > 0 && bits !== 0)) console.log(run.name + ': a flag or a transfer register is live at the start');
  checkForm(run, listing);
  checkLinks(run, listing, ran);
}
