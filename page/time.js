// The registers over time, the labels, and the start of the page.

const stripHeight = 34, bandHeight = 14, rowHeight = 10, axisHeight = 14, nameWidth = 36, windowSteps = 2000, rowsTop = stripHeight + bandHeight + 4, tickWidth = 60;
let label = 0;
const labelAt = code.map((_, place) => {
  while (label + 1 < listing.labels.length && listing.labels[label + 1].start <= place) label += 1;
  return listing.labels[label];
});
const chart = { registers: [], from: 0, to: 0 };

function showSteps() {
  const { ran } = now;
  chart.registers = REGISTERS.map((_, r) => r).filter(r => ran.history[r].steps.length > 0 || r < now.input.args.length);
  chart.height = rowsTop + chart.registers.length * rowHeight + axisHeight;
  at('chart').style.height = chart.height + 2 + 'px';
  at('step').max = Math.max(0, ran.places.length - 1);
  const written = ran.accesses.filter(it => it.isWrite).pop();
  goTo(now.step >= 0 ? now.step : written ? written.step : ran.places.length - 1);
}
function goTo(step) {
  if (!now.hasCounts) return;
  now.step = Math.max(0, Math.min(step, now.ran.places.length - 1));
  at('step').value = now.step;
  const place = now.ran.places[now.step];
  all('.row.at').forEach(it => it.classList.remove('at'));
  const row = rowOf(place), pane = row.closest('.scroll');
  row.classList.add('at');
  const topIn = (it, box) => it.getBoundingClientRect().top - box.getBoundingClientRect().top + box.scrollTop;
  pane.scrollTop = Math.max(0, topIn(row, pane) - pane.clientHeight / 2);
  if (candidates[place].length === 1) {
    const line = lineRow(candidates[place][0]), source = line.closest('.scroll'), top = topIn(line, source);
    line.classList.add('at');
    if (top < source.scrollTop || top + 24 > source.scrollTop + source.clientHeight) source.scrollTop = Math.max(0, top - source.clientHeight / 2);
  }
  const written = [...new Set(code[place].writes)].map(r => REGISTERS[r] + ' = ' + hex(wordAt(r, now.step)));
  const rest = now.ran.steps === now.ran.places.length ? '' : ' (the first ' + now.ran.places.length + ' are shown)';
  at('where').textContent = 'step ' + (now.step + 1) + ' of ' + now.ran.steps + rest + '   place ' + place + '   ' + code[place].text + (written.length ? '   ' + written.join('  ') : '');
  markAccesses();
  draw();
}

// One picture of the steps from one on: the live values of A and B above, and each register below.
function draw() {
  const canvas = at('chart'), css = getComputedStyle(document.documentElement), colour = name => css.getPropertyValue('--' + name).trim();
  const { places } = now.ran, width = canvas.clientWidth, { height } = chart;
  const ratio = window.devicePixelRatio || 1;
  canvas.width = width * ratio;
  canvas.height = height * ratio;
  const g = canvas.getContext('2d');
  g.scale(ratio, ratio);
  g.font = '9px ui-monospace, monospace';
  chart.from = Math.floor(now.step / windowSteps) * windowSteps;
  chart.to = Math.min(places.length, chart.from + windowSteps);
  chart.wide = (width - nameWidth) / Math.max(1, chart.to - chart.from);
  const x = step => nameWidth + (step - chart.from) * chart.wide, wide = Math.max(1, chart.wide - (chart.wide > 3 ? .5 : 0));
  const inks = { A: colour('A'), B: colour('B'), L: colour('L'), LD: colour('L'), S: colour('S'), SD: colour('S') };
  const unit = stripHeight / 30;
  const counts = places.slice(chart.from, chart.to).map(place => liveCounts(live[place]));
  g.globalAlpha = .75;
  g.fillStyle = inks.A;
  counts.forEach(([inA], n) => g.fillRect(x(chart.from + n), stripHeight - inA * unit, wide, inA * unit));
  g.fillStyle = inks.B;
  counts.forEach(([inA, inB], n) => g.fillRect(x(chart.from + n), stripHeight - (inA + inB) * unit, wide, inB * unit));
  g.globalAlpha = 1;
  g.fillStyle = colour('dim');
  for (const count of [15, 30]) {
    g.fillRect(nameWidth, stripHeight - count * unit, width - nameWidth, .6);
    g.fillText(count, nameWidth - 13, Math.max(7, stripHeight - count * unit + 3));
  }
  g.fillText('live', 2, stripHeight - 2);
  g.fillText('label', 2, stripHeight + 13);
  drawLabels(g, x);
  drawAxis(g, x, height - 3);
  chart.registers.forEach((register, n) => {
    const top = rowsTop + n * rowHeight;
    g.fillStyle = colour('text');
    g.fillText(REGISTERS[register], 2, top + 8);
    g.fillStyle = inks[bankOf(register)];
    g.globalAlpha = .28;
    let from = -1;
    for (let step = chart.from; step <= chart.to; step += 1) {
      const isOn = step < chart.to && isLive(live[places[step]], register);
      if (isOn && from < 0) from = step;
      if (!isOn && from >= 0) {
        g.fillRect(x(from), top + 1, (step - from) * chart.wide, rowHeight - 2);
        from = -1;
      }
    }
    g.globalAlpha = 1;
    for (const step of now.ran.history[register].steps) if (step >= chart.from && step < chart.to) g.fillRect(x(step), top + 1, wide, rowHeight - 2);
  });
  g.globalAlpha = .45;
  g.fillStyle = colour('text');
  g.fillRect(x(now.step), 0, Math.max(1.5, Math.min(chart.wide, 4)), height);
}
// The labels that the steps are in, with their names where there is room.
function drawLabels(g, x) {
  const { places } = now.ran;
  for (let step = chart.from, to = step; step < chart.to; step = to) {
    const label = labelAt[places[step]], title = labelTitle(label.number);
    while (to < chart.to && labelAt[places[to]] === label) to += 1;
    const room = (to - step) * chart.wide, said = [title, 'L' + label.number].find(it => it.length * 5.5 + 4 < room);
    g.globalAlpha = label.number % 2 ? .35 : .2;
    g.fillRect(x(step), stripHeight + 4, Math.max(1, room - 1), bandHeight - 2);
    g.globalAlpha = 1;
    if (said) g.fillText(said, x(step) + 3, stripHeight + 13);
  }
}
// The numbers of steps below.
function drawAxis(g, x, bottom) {
  const ten = 10 ** Math.ceil(Math.log10(tickWidth / chart.wide)), every = Math.max(1, [ten / 5, ten / 2, ten].find(it => it * chart.wide >= tickWidth));
  g.fillText('step', 2, bottom);
  for (let number = Math.floor(chart.from / every) * every + every; number <= chart.to; number += every) {
    g.fillRect(x(number - 1), bottom - 10, 1, 3);
    g.fillText(number, x(number - 1) + 3, bottom);
  }
}
function stepAt(event) {
  const step = chart.from + Math.floor((event.offsetX - nameWidth) / chart.wide);
  return event.offsetX >= nameWidth && step < chart.to ? step : -1;
}
on(at('chart'), 'mousemove', event => {
  const step = stepAt(event), register = chart.registers[Math.floor((event.offsetY - rowsTop) / rowHeight)];
  if (step < 0) return showTip('', event);
  const place = now.ran.places[step], [inA, inB] = liveCounts(live[place]), head = 'step ' + (step + 1) + ', ' + labelTitle(labelAt[place].number) + ', place ' + place + ': ' + code[place].text;
  if (register === undefined || event.offsetY < rowsTop) return showTip(head + '\nlive: ' + inA + ' of 15 in A, ' + inB + ' of 15 in B', event);
  return showTip(head + '\n' + REGISTERS[register] + ' = ' + hex(wordAt(register, step)) + (isLive(live[place], register) ? ', live' : ', not read again before it is written'), event);
});
on(at('chart'), 'mouseleave', event => showTip('', event));
on(at('chart'), 'click', event => { if (stepAt(event) >= 0) goTo(stepAt(event)); });
on(at('step'), 'input', () => goTo(Number(at('step').value)));
at('back').onclick = () => goTo(now.step - 1);
at('on').onclick = () => goTo(now.step + 1);
addEventListener('resize', () => { if (now.hasCounts) draw(); });
for (const media of ['print', '(prefers-color-scheme: dark)']) on(matchMedia(media), 'change', () => { if (now.hasCounts) draw(); });

// The labels as a graph: in the order of a walk from label 0, with jumps ahead right and jumps that close a loop left.
function walkLabels() {
  const order = [], state = new Map(), loops = new Set();
  const visit = number => {
    state.set(number, 'open');
    for (const next of [...(forms.get(number) || { next: [] }).next].reverse()) {
      if (state.get(next) === 'open') loops.add(number + ' ' + next);
      else if (!state.has(next) && forms.has(next)) visit(next);
    }
    state.set(number, 'done');
    order.unshift(number);
  };
  for (const number of [0, ...forms.keys()]) if (forms.has(number) && !state.has(number)) visit(number);
  return { order, loops };
}
function showLabels() {
  const { order, loops } = walkLabels(), gap = 36, high = 24;
  const said = order.map(number => {
    const entries = (profileNow().labels.get(number) || { entries: 0 }).entries, points = forms.get(number).rows.filter(row => row.line !== '}').length;
    return labelTitle(number) + ': ' + several(points, 'point') + (now.run ? ', entered ' + several(entries, 'time') : '');
  });
  const wide = Math.ceil(Math.max(60, ...said.map(it => it.length * 7.4 + 20))), rows = new Map(order.map((number, n) => [number, n * gap + 22]));
  const reach = (from, to) => Math.min(140, 24 + Math.abs(rows.get(to) - rows.get(from)) / 3.5);
  const arcs = order.flatMap(from => [...forms.get(from).next].filter(to => rows.has(to)).map(to => ({ from, to, isLoop: loops.has(from + ' ' + to) })));
  const margin = isLoop => Math.max(8, ...arcs.filter(it => it.isLoop === isLoop).map(it => .8 * reach(it.from, it.to)));
  const left = margin(true);
  const most = Math.max(1, ...[...profileNow().labels.values()].map(it => it.entries));
  let out = '<svg role="img" aria-label="labels and jumps" width="' + Math.ceil(left + wide + margin(false)) + '" height="' + (order.length * gap + 10) + '"><defs>'
    + ['on', 'loop'].map(kind => '<marker id="arrow-' + kind + '" class="' + kind + '" viewBox="0 0 8 8" refX="7" refY="4" markerWidth="7" markerHeight="7" orient="auto"><path d="M0 0L8 4L0 8z"/></marker>').join('') + '</defs>';
  for (const { from, to, isLoop } of arcs) {
    const y = rows.get(from), end = rows.get(to), kind = isLoop ? 'loop' : 'on', side = isLoop ? left : left + wide, middle = left + wide / 2;
    const bend = side + (isLoop ? -1 : 1) * reach(from, to);
    const path = !isLoop && end === y + gap ? 'M' + middle + ' ' + (y + high / 2) + 'L' + middle + ' ' + (end - high / 2)
      : 'M' + side + ' ' + (y + 4) + 'C' + bend + ' ' + (y + 4) + ' ' + bend + ' ' + (end - 4) + ' ' + side + ' ' + (end - 4);
    out += '<path class="' + kind + '" d="' + path + '" marker-end="url(#arrow-' + kind + ')"/>';
  }
  order.forEach((number, n) => {
    const y = rows.get(number), isHot = now.run && (profileNow().labels.get(number) || { entries: 0 }).entries === most;
    out += '<g data-go="' + number + '"><rect class="' + (isHot ? 'hot' : '') + '" x="' + left + '" y="' + (y - high / 2) + '" width="' + wide + '" height="' + high + '" rx="4"/><text x="' + (left + 10) + '" y="' + (y + 4) + '">' + safe(said[n]) + '</text></g>';
  });
  put('graph', out + '</svg>');
}
on(at('graph'), 'click', event => {
  const box = event.target.closest('[data-go]');
  finish();
  if (box) first('[data-label="' + box.dataset.go + '"]').scrollIntoView({ block: 'nearest' });
});

// The tabs of the memory texts.
function showRuns() {
  at('runs').hidden = runs.length < 2;
  put('runs', runs.map(run => '<button role="tab" title="' + safe(run.title) + '">' + safe(baseName(run.title)) + '</button>').join(''));
  on(at('runs'), 'click', event => {
    const n = [...at('runs').children].indexOf(event.target);
    if (n < 0) return;
    startWith(runs[n]);
    showLabels();
    showSummary();
  });
}
function showSummary() {
  const steps = now.run ? '; ' + several(now.run.profile.steps, 'step') : '';
  at('summary-line').innerHTML = safe(lines(text('summary')).map(it => it.trim()).join('; ') + steps).replace(/[0-9]+/g, '<b>$&</b>');
}
function showValues() {
  let most = 0;
  for (const form of forms.values()) walkLive(form, (_, found) => { most = Math.max(most, found.size); });
  at('values-note').textContent = 'At most ' + several(most, 'value') + (most === 1 ? ' is' : ' are') + ' live at once. Banks A and B have 15 registers each for values. The banks are those of the report that the proof checks.';
  const homed = new Map();
  for (const [value, homes] of banks) homed.set(homes.join(', '), (homed.get(homes.join(', ')) || []).concat(value));
  put('values', [...homed].map(([homes, values]) => '<p><b class="r ' + homes[0] + '">' + homes + ':</b> ' + values.map(value => '<span data-v="' + value + '">' + safe(titleOf(value)) + '</span>').join(' ') + '</p>').join(''));
}
function showPage() {
  document.title = baseName(name) + ' \u00b7 Nova';
  at('title').textContent = baseName(name);
  at('title').title = name;
  showSummary();
  at('code-aside').textContent = now.run ? 'with how often each instruction ran' : '';
  at('source-aside').textContent = now.run ? 'with how often each access, raise and end came about' : '';
  at('sizes-text').textContent = text('sizes');
  put('key', [['A', 'bank A'], ['B', 'bank B'], ['L', 'read registers L and LD'], ['S', 'write registers S and SD']].map(([bank, said]) => '<span class="r ' + bank + '">\u25a0 ' + said + '</span>').join('') + '<span>the strip counts what is live in A and B, of 15 each</span>');
  document.body.classList.toggle('plain', now.run === null);
  if (now.run === null) return showCounts();
  now.memory = now.run.memory.sdram.length > 0 ? 'sdram' : 'sram';
  put('memories-choice', ['sdram', 'sram', 'scratch'].map(it => '<button>' + (it === 'scratch' ? it : it.toUpperCase()) + '</button>').join(' '));
  on(at('memories-choice'), 'click', event => {
    if (event.target.tagName !== 'BUTTON') return;
    now.memory = event.target.textContent.toLowerCase();
    showMemory();
  });
  const options = (title, names) => (names.length > 0 ? '<optgroup label="' + title + '">' + names.map(it => '<option>' + safe(it) + '</option>').join('') + '</optgroup>' : '');
  put('layout', '<option value="">none</option>' + options('layouts of the source', layouts.map(it => it.name)) + options('headers', Object.keys(HEADERS)));
  showRuns();
  return startWith(now.run);
}
function followLink() {
  const found = /^#([Li])([0-9]+)$/.exec(location.hash), row = found ? (found[1] === 'L' ? lineRow : rowOf)(found[2]) : null;
  if (row) row.scrollIntoView({ block: 'center' });
}
showPage();
tasks.push(showLabels, showValues);
later(goOn);
addEventListener('hashchange', followLink);
followLink();
