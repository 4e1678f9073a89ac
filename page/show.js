// Shows the texts of the page.

const at = id => document.getElementById(id);
const all = css => document.querySelectorAll(css), first = css => document.querySelector(css);
const on = (it, kind, does) => it.addEventListener(kind, does);
const text = id => (at(id) ? at(id).textContent : '');
const safe = it => String(it).replace(/[&<>"]/g, c => ({ '&': '&amp;', '<': '&lt;', '>': '&gt;', '"': '&quot;' })[c]);
const lines = it => it.split('\n').filter(line => line !== '');
const put = (id, html) => { at(id).innerHTML = html; };
const mostSteps = 1000000, keptSteps = 20000, mostEvents = 3000;

const name = text('name').trim(), baseName = it => it.replace(/^.*\//, '');
const listing = readListing(text('listing'));
const code = listing.code;
const live = liveBefore(code);
const exceptions = new Map([...text('sizes').matchAll(/^exception `(\w+)`: `raised ([0-9]+)`/gm)].map(it => [Number(it[2]), it[1]]));
const layouts = readLayouts(text('sizes'));
const source = readSource(text('source'));
const forms = readForm(text('form'));
const notes = followCode(listing, forms);
let stepsLeft = 20 * mostSteps;

// The runs of nova, one for each memory text, with what they tell of the source.
const runs = lines(text('memories')).map((title, n) => {
  const of = id => text(id + (n || '')), profile = readProfile(of('profile'));
  const it = { title, memory: readMemory(of('memory')), outcome: of('outcome'), profileText: of('profile'), profile, ran: null, found: 'it is too long to be replayed here', links: null };
  if (profile.steps > stepsLeft) return it;
  stepsLeft -= profile.steps;
  it.ran = runCode(code, copyMemory(it.memory), profile.steps, keptSteps);
  it.found = disagreement(listing, it.ran, it.outcome, profile);
  if (it.found === '') it.links = linksOf(code, source, it.ran, readEvents(of('events')), mostEvents, exceptions);
  return it;
});

// What the page shows now: a run of nova, or one after a byte was changed.
const now = { run: runs[0] || null, input: null, ran: null, after: null, isOurs: false, hasCounts: false, step: -1, memory: 'sdram', from: 0, bytes: null };
const profileNow = () => (now.run ? now.run.profile : { steps: 0, labels: new Map() });

// The words of the source that have a colour.
const keywords = {
  word: /^(layout|exception|fun|and|let|if|else|unpack|pack|raise|try|handle|overlay|_|true|false)$/,
  type: /^(word|bool|packed|unpacked)$/,
  mem: /^(sram|sdram|scratch)$/,
};
const sourceLines = source.text.replace(/\n$/, '').split('\n');
// Where each place comes from: by the runs of the interpreter, or else what of the source may do such a thing. It is known where this is one line.
const acts = actsOf(source, layouts);
const linked = code.map(() => new Set());
for (const run of runs) if (run.links) for (const [place, found] of run.links.places) for (const at of found) linked[place].add(at);
const origins = code.map((it, place) => (linked[place].size > 0 ? [...linked[place]] : actsFor(acts, it, exceptions, notes[place], forms)));
const candidates = origins.map(found => [...new Set(found.map(source.lineAt))]), reached = new Set(origins.flat());
// The places that come from a line, and those that may.
const placesOf = new Map(), mayOf = new Map();
candidates.forEach((found, place) => found.forEach(line => {
  const of = found.length === 1 ? placesOf : mayOf;
  of.set(line, (of.get(line) || []).concat(place));
}));
const labelNames = labelNamesOf(listing, source, runs, origins);
let valueNames = null;
const labelTitle = number => 'L' + number + (labelNames.has(number) ? ' ' + labelNames.get(number) : '');
function titleOf(value) {
  valueNames = valueNames || valueNamesOf(source, layouts, forms, notes, origins, exceptions);
  return value + (valueNames.has(value) ? ' (' + valueNames.get(value).join(', ') + ')' : '');
}

const banks = new Map(), bankNames = { M: 'slot', L: 'read register', W: 'write register', X: 'A15' };
for (const it of text('banks').matchAll(/([0-9]+)([A-Z])(c?)/g)) {
  const value = 'v' + it[1];
  banks.set(value, (banks.get(value) || []).concat((bankNames[it[2]] || it[2]) + (it[3] ? ' copied' : '')));
}

// Rows of the source and the code.
function coloured(line) {
  return line.replace(/\/\/.*|[A-Za-z_]\w*|[0-9]\w*|[^\w/]+|\//g, word => {
    const kind = word.startsWith('//') ? 'com' : /^[0-9]/.test(word) ? 'num' : Object.keys(keywords).find(it => keywords[it].test(word));
    return kind ? '<span class="' + kind + '">' + safe(word) + '</span>' : safe(word);
  });
}
function colouredCode(it) {
  return it.words.map((word, n) => {
    const register = NUMBER.get(word);
    if (n === 0) return '<span class="word">' + word + '</span>';
    if (register !== undefined && register !== NONE) return '<span class="r ' + bankOf(register) + '">' + word + '</span>';
    return keywords.mem.test(word) ? '<span class="mem">' + word + '</span>' : safe(word);
  }).join(' ');
}
const kindName = kind => (kind.startsWith('move between') ? 'between' : kind.startsWith('move') ? 'within' : kind.split(' ')[0]);
const sorted = found => [...found].sort((x, y) => x.slice(1) - y.slice(1));
const formText = it => safe(it).replace(/\bv[0-9]+\b/g, value => '<span data-v="' + value + '">' + value + '</span>');
function formRow(words, depth, found) {
  const count = found ? found.size : 0;
  const bar = found ? '<span class="h' + (count > 30 ? ' over' : '') + '" style="--w:' + Math.min(100, count * 100 / 30) + '%">' + count : '<span class="h">';
  return '<div class="row point"' + (found ? ' data-live="' + sorted(found).join(' ') + '"' : '') + '><span class="n"></span>' + bar + '</span><span class="t">' + '  '.repeat(depth) + formText(words) + '</span></div>';
}
function formRows(form) {
  const live = new Map();
  walkLive(form, (row, found) => live.set(row, new Set(found)));
  return [formRow('label ' + form.number + '(' + form.params.join(', ') + ')', 0, new Set(form.params)), ...form.rows.map(row => formRow(textOf(row), row.depth, live.get(row)))];
}
// The edge of a line and of its instructions: one colour for what is tied, dots for what may be.
const edgeOf = (line, isPerhaps) => (line ? ' tied" style="--t:' + line * 67 % 360 : isPerhaps ? ' may' : '');
const lineRow = line => at('L' + line);

// What isn't on the screen is built when nothing else is to be done, and at once where it is asked for.
const tasks = [], later = window.requestIdleCallback || (does => setTimeout(does, 1));
function finish() {
  while (tasks.length > 0) tasks.shift()();
}
function goOn(idle) {
  do if (tasks.length > 0) tasks.shift()(); while (tasks.length > 0 && idle && idle.timeRemaining() > 4);
  if (tasks.length > 0) later(goOn);
}
addEventListener('beforeprint', finish);

// The rows of the code stand in blocks, of which a browser lays out those on the screen alone: the rows of each that is still to be built, and the block of each place.
const blockRows = 24, blocks = [], blockOf = [];
function fill(n) {
  if (!blocks[n]) return;
  at('code-rows').children[n].innerHTML = blocks[n].map(row => row()).join('');
  blocks[n] = null;
}
function rowOf(place) {
  for (const step of [-1, 0, 1]) fill(blockOf[place] + step);
  return at('i' + place);
}

// How often each place ran, each label was entered, and each line that is tied did what it does: as its cell of a row, or as words.
function countCells() {
  const counts = now.ran ? now.ran.counts : new Float64Array(code.length), most = Math.max(1, ...counts);
  const places = code.map((_, place) => (now.hasCounts && counts[place] > 0 ? '<span class="h" style="--w:' + Math.ceil(100 * counts[place] / most) + '%">' + counts[place] : '<span class="h">') + '</span>');
  const labels = labelCounts(listing, counts).map(it => {
    const { entries, steps } = now.isOurs ? it : profileNow().labels.get(it.number) || { entries: 0, steps: 0 };
    return entries === 0 ? 'not entered' : 'entered ' + several(entries, 'time') + ', ' + several(steps, 'step');
  });
  const lines = new Map();
  for (const [line, of] of placesOf) {
    const sums = new Map();
    for (const place of of) sums.set(tieOf(place), (sums.get(tieOf(place)) || 0) + counts[place]);
    lines.set(line, now.hasCounts ? Math.max(...sums.values()) : '');
  }
  return { places, labels, lines };
}
function codeRow(place, cell) {
  const found = candidates[place];
  return '<div class="row ' + kindName(code[place].kind) + edgeOf(found.length === 1 && found[0], found.length > 1) + '" id="i' + place + '" data-place="' + place + '"><a href=#i' + place + '>' + place
    + '</a>' + cell + '<span class="t">' + colouredCode(code[place]) + '</span></div>';
}
function showCode(cells) {
  const rows = [];
  listing.labels.forEach(({ number, start }, n) => {
    const end = n + 1 < listing.labels.length ? listing.labels[n + 1].start : code.length, form = forms.get(number);
    rows.push(() => '<div class="row label" data-label="' + number + '">' + safe(labelTitle(number)) + ':<small>' + (now.run ? cells.labels[n] : '') + '</small></div>');
    if (form && at('with-form').checked) rows.push(...formRows(form).map(row => () => row));
    for (let place = start; place < end; place += 1) {
      blockOf[place] = Math.floor(rows.length / blockRows);
      rows.push(() => codeRow(place, cells.places[place]));
    }
  });
  blocks.length = 0;
  for (let n = 0; n < rows.length; n += blockRows) blocks.push(rows.slice(n, n + blockRows));
  put('code-rows', blocks.map(it => '<div class="block" style="--rows:' + it.length + '"></div>').join(''));
  rowOf(0);
  for (let n = 0; n < blocks.length; n += 8) tasks.push(() => { for (let of = n; of < n + 8; of += 1) fill(of); });
}
function showSource() {
  put('source-rows', sourceLines.map((line, n) => '<div class="row' + edgeOf(placesOf.has(n + 1) && n + 1, mayOf.has(n + 1)) + '" id="L' + (n + 1) + '" data-line="' + (n + 1) + '"><a href=#L' + (n + 1) + '>' + (n + 1)
    + '</a><span class="h"></span><span class="t">' + (coloured(line) || ' ') + '</span></div>').join(''));
}
// The counts of the run beside rows that are there, or else the rows with them.
function showCounts() {
  const cells = countCells();
  document.body.classList.toggle('uncounted', !now.hasCounts);
  if (at('code-rows').firstChild === null) {
    showSource();
    showCode(cells);
  } else {
    finish();
    all('#code-rows .h').forEach(it => { if (it.parentNode.dataset.place) it.outerHTML = cells.places[it.parentNode.dataset.place]; });
    all('#code-rows small').forEach((it, n) => { it.textContent = cells.labels[n]; });
  }
  for (const [line, count] of cells.lines) lineRow(line).children[1].textContent = count;
}

// A view of what happened in the run: the words of a register, and what a step did.
function wordAt(register, step) {
  const { steps, words } = now.ran.history[register];
  let low = 0, high = steps.length;
  while (low < high) {
    const middle = (low + high) >> 1;
    if (steps[middle] <= step) low = middle + 1;
    else high = middle;
  }
  if (low > 0) return words[low - 1];
  return register < now.input.args.length ? now.input.args[register] : register === NUMBER.get('B15') ? SPILL_BASE : 0;
}
const listed = registers => (registers.length > 2 ? REGISTERS[registers[0]] + ' to ' + REGISTERS[registers[registers.length - 1]] : registers.map(r => REGISTERS[r]).join(' and '));
function meaning(it) {
  const to = it.to === NONE ? 'the flags' : REGISTERS[it.to], x = REGISTERS[it.x], y = REGISTERS[it.y];
  const signs = { ADD: '+', SUB: '-', AND: '&', OR: '|', XOR: '^', SHL: '<<', SHR: '>>', ROL: '<<<' };
  if (it.op === 'alu') return to + ' = ' + x + ' ' + signs[it.operation] + ' ' + y;
  if (it.op === 'un') return to + ' = ' + (it.operation === 'COPY' ? x : it.operation === 'NOT' ? '~' + x : x + ' ' + signs[it.operation] + ' ' + it.shift);
  if (it.op === 'immed') return to + ' = 0x' + it.value.toString(16) + ' (' + it.value + ')';
  if (it.op === 'br') {
    const when = { ALWAYS: '', Z: ' if the result was 0', NZ: " if the result wasn't 0", C: ' if there was a carry', NC: ' if there was no carry' };
    return 'goes on at ' + it.target + when[it.condition];
  }
  const place = it.memory + ' at ' + x + (it.offset ? ' + ' + it.offset : '');
  if (it.op === 'read') return 'reads ' + listed(it.list) + ' from ' + place;
  if (it.op === 'write') return 'writes ' + listed(it.list) + ' to ' + place;
  return (it.exception === 0 ? 'ends' : 'raises ' + (exceptions.get(it.exception) || it.exception)) + (it.count > 0 ? ' with ' + listed(it.reads) : '');
}
function placeTip(place) {
  const it = code[place], note = notes[place], [inA, inB] = liveCounts(live[place]), out = [place + ': ' + it.text, meaning(it)];
  if (note && note.row && it.kind === '') out.push(textOf(note.row).replace(/\bv[0-9]+\b/g, value => titleOf(forms.get(note.label).root(value))));
  out.push(...reasons(place));
  out.push('Live before it: ' + inA + ' of 15 in A, ' + inB + ' of 15 in B.');
  const found = candidates[place], isSeen = linked[place].size > 0;
  if (isSeen) out.push('From line ' + found.join(' and line ') + ' of the source, as the interpreter noted in the run.');
  else if (found.length > 0) out.push(found.length > 1 ? 'From one of the lines ' + found.join(', ') + '.' : 'From line ' + found[0] + ' of the source, the only one that may do this.');
  if (now.hasCounts) out.push('Ran ' + several(now.ran.counts[place], 'time') + ', ' + (100 * now.ran.counts[place] / now.ran.steps).toFixed(1) + ' % of the steps.');
  const isNow = now.hasCounts && now.ran.places[now.step] === place;
  for (const r of new Set([...it.reads, ...it.writes])) {
    const word = note ? note.writes.get(r) || note.reads.get(r) : null, value = word && word.value ? ': ' + titleOf(word.value) : '';
    if (r !== NONE && (isNow || value)) out.push(REGISTERS[r] + value + (isNow ? ' = ' + hex(wordAt(r, now.step)) : ''));
  }
  return out.filter(line => line !== '').join('\n');
}
function valueTip(value) {
  const homes = banks.get(value);
  if (!homes) return titleOf(value) + ': no bank is chosen for it; it is a copy of another value, or in transfer registers.';
  const said = { 'A': 'is put into bank A', 'B': 'is put into bank B', 'A copied': 'is copied into bank A, which costs 1', 'B copied': 'is copied into bank B, which costs 1' };
  return titleOf(value) + ' ' + homes.map(home => said[home] || 'is put into a ' + home).join(', and ') + '. Costs are times the weight of the label, here 1.' + alternatives(value);
}
const keyAt = place => keyOf(code[place], exceptions), tieOf = place => (linked[place].size === 1 ? keyAt(place) + ' ' + [...linked[place]][0] : keyAt(place));
const atPlaces = places => (places.length > 1 ? 'at the places ' : 'at place ') + places.join(', ');
const act = key => (key.startsWith('raise') ? 'the end by ' + key : key);
function lineTip(line) {
  const places = placesOf.get(line) || [], others = mayOf.get(line) || [];
  const out = [...new Set(places.map(tieOf))].map(tie => {
    const of = places.filter(place => tieOf(place) === tie);
    const times = now.hasCounts ? ' ran ' + several(of.reduce((sum, place) => sum + now.ran.counts[place], 0), 'time') + ', ' : ' ';
    return act(keyAt(of[0])) + times + atPlaces(of);
  });
  for (const lines of new Set(others.map(place => candidates[place].join(', ')))) {
    const of = others.filter(place => candidates[place].join(', ') === lines);
    out.push(act(keyAt(of[0])) + ' ' + atPlaces(of) + ', from one of the lines ' + lines);
  }
  for (const it of acts) {
    if (source.lineAt(it.at) === line && !reached.has(it.at)) out.push(it.key + ' has no instruction of its own: it is handled in the source, so the code goes on there, or it can\u2019t come about');
  }
  return out.join('\n');
}

// Which rows belong together.
function light(lines, places, scroll) {
  all('.row.lit').forEach(it => it.classList.remove('lit'));
  lines.forEach(line => lineRow(line).classList.add('lit'));
  places.forEach(place => rowOf(place).classList.add('lit'));
  if (scroll) scroll.scrollIntoView({ block: 'nearest' });
}
const lightPlace = (place, isFar) => light(candidates[place], [place], isFar && candidates[place].length > 0 && lineRow(candidates[place][0]));
function lightLine(line, isFar) {
  const places = [...(placesOf.get(line) || []), ...(mayOf.get(line) || [])];
  light(places.length > 0 ? [line] : [], places, isFar && places.length > 0 && rowOf(places[0]));
}
function showTip(words, event) {
  at('tip').hidden = words === '';
  if (words === '') return;
  at('tip').textContent = words;
  const { width, height } = at('tip').getBoundingClientRect();
  at('tip').style.left = Math.max(4, Math.min(event.clientX + 14, innerWidth - width - 4)) + 'px';
  at('tip').style.top = (event.clientY + 18 + height > innerHeight ? Math.max(4, event.clientY - height - 10) : event.clientY + 18) + 'px';
}
function pointAt(event) {
  const find = name => event.target.closest('[data-' + name + ']');
  const value = find('v'), register = event.target.closest('.t .r'), place = find('place'), line = find('line'), point = find('live');
  all('.r.same').forEach(it => it.classList.remove('same'));
  if (register) all('#code-rows .r').forEach(it => it.classList.toggle('same', it.textContent === register.textContent));
  if (value) return showTip(valueTip(value.dataset.v), event);
  if (point) return showTip(several(point.dataset.live.split(' ').filter(it => it).length, 'value') + ' live: ' + point.dataset.live.split(' ').map(titleOf).join(', '), event);
  if (place) {
    const n = Number(place.dataset.place);
    lightPlace(n);
    return showTip(placeTip(n), event);
  }
  if (line) {
    const n = Number(line.dataset.line);
    lightLine(n);
    return showTip(lineTip(n), event);
  }
  light([], []);
  return showTip('', event);
}
for (const id of ['source-rows', 'code-rows', 'values']) {
  on(at(id), 'mousemove', pointAt);
  on(at(id), 'mouseleave', event => { light([], []); showTip('', event); });
}
on(at('source-rows'), 'click', event => {
  const row = event.target.closest('[data-line]');
  if (row) lightLine(Number(row.dataset.line), true);
});
on(at('code-rows'), 'click', event => {
  const row = event.target.closest('[data-place]');
  if (!row) return;
  const place = Number(row.dataset.place), step = now.hasCounts ? now.ran.places.indexOf(place) : -1;
  lightPlace(place, true);
  if (step >= 0) goTo(step);
});
on(at('with-form'), 'change', () => {
  showCode(countCells());
  finish();
  if (now.run) goTo(now.step);
});
