// The memories before and after the run, which can be changed and run again; and the head of the page.

const bytesOf = words => [...words].flatMap(word => [word >>> 24, word >>> 16 & 255, word >>> 8 & 255, word & 255]);

// Stretches of bytes that aren't all zero on both sides, eight a line; the first lines always.
function shownStretches(before, after) {
  const out = [];
  for (let from = 0; from < before.length && out.length < 512; from += 8) {
    let isZero = from >= 64;
    for (let n = from; isZero && n < from + 8 && n < before.length; n += 1) isZero = before[n] === 0 && after[n] === 0;
    if (!isZero) out.push(from);
  }
  return out;
}

const shownBytes = memory => bytesOf(memory[now.memory].subarray(0, now.memory === 'scratch' ? SPILL_BASE : memory[now.memory].length));
function showBytes() {
  const before = shownBytes(now.input), after = shownBytes(now.after);
  now.bytes = { before, after };
  const cells = (bytes, other, from, side) => '<span class="' + side + '">' + bytes.slice(from, from + 8).map((byte, n) => '<b data-byte="' + (from + n) + '"'
    + (byte !== other[from + n] && side === 'after' ? ' class="changed"' : '') + '>' + hex(byte, 2) + '</b>').join('') + '</span>';
  put('bytes', '<span>byte</span><span>before</span><span>after</span>' + shownStretches(before, after).map(from => '<span>' + hex(from, 4) + '</span>' + cells(before, after, from, 'before') + cells(after, before, from, 'after')).join(''));
}

// The fields of two lists of headers, one beside the other where they have one name.
function fieldRows(first, second) {
  const keyed = groups => {
    const seen = new Map();
    return groups.map(group => {
      seen.set(group.title, (seen.get(group.title) || 0) + 1);
      return [group.title + ' ' + seen.get(group.title), group];
    });
  };
  const old = new Map(keyed(first)), pairs = keyed(second).map(([key, group]) => [old.get(key) || null, group, key]);
  const used = new Set(pairs.map(it => it[2]));
  for (const [key, group] of old) if (!used.has(key)) pairs.push([group, null, key]);
  return pairs.map(([before, after]) => {
    const any = after || before, moved = before && after && before.at !== after.at ? ', from byte ' + before.at : '';
    const remark = before && after ? moved : after ? ', new' : ', gone';
    const rows = any.fields.map((field, n) => {
      const same = group => (group ? group.fields.find((it, m) => it.name === field.name && (m === n || it.name !== 'reserved')) : null);
      return fieldRow(same(before), same(after));
    });
    return '<tr class="group"><td colspan="3">' + safe(any.title) + ' at byte ' + any.at + remark + '</td></tr>' + rows.join('');
  }).join('');
}
const isRight = field => (field.isRight === undefined ? '' : field.isRight ? ' <span class="right" title="right">\u2713</span>' : ' <span class="wrong" title="wrong">\u2717</span>');
function fieldRow(before, after) {
  const any = after || before, side = field => (field ? safe(field.text) + isRight(field) : '\u2013');
  const isSame = before && after && before.text === after.text && before.isRight === after.isRight;
  const bytes = [any.bit >> 3, any.size === 0 ? 0 : ((any.bit + any.size - 1) >> 3) - (any.bit >> 3) + 1];
  return '<tr' + (isSame ? '' : ' class="changed"') + ' data-from="' + bytes[0] + '" data-size="' + bytes[1] + '"><td>' + safe(any.name) + (any.where ? ' <small>' + any.where + '</small>' : '') + '</td><td>' + side(before) + '</td><td>' + (isSame ? '' : '\u2192 ' + side(after)) + '</td></tr>';
}
function showFields() {
  const { before, after } = now.bytes;
  // A header stays where it was before a byte was changed, though its checksum may be wrong now.
  const ofRun = now.isOurs ? [now.run.memory, readMemory(now.run.outcome)] : [], [was] = [...ofRun.map(shownBytes), after].flatMap(it => packetGroups(it).slice(0, 1));
  const first = packetGroups(before, was);
  put('fields', fieldRows(first, packetGroups(after, first[0])));
  const chosen = at('layout').value, layout = layouts.find(it => it.name === chosen), from = 4 * Number(at('layout-at').value);
  const groups = bytes => (layout ? [layoutGroup(bytes, layout, from)] : headersAt(bytes, chosen, from));
  put('layout-fields', chosen && from < before.length ? fieldRows(groups(before), groups(after)) : '');
}
function showMemory() {
  showBytes();
  showFields();
  at('memories-choice').querySelectorAll('button').forEach(it => it.setAttribute('aria-pressed', it.textContent.toLowerCase() === now.memory));
  if (now.hasCounts) markAccesses();
}

// The bytes that the step reads or writes.
function markAccesses() {
  at('bytes').querySelectorAll('.read, .wrote').forEach(it => it.classList.remove('read', 'wrote'));
  for (const it of now.ran.accesses) {
    if (it.step !== now.step || it.memory !== now.memory) continue;
    for (let n = 4 * it.at; n < 4 * (it.at + it.count); n += 1) {
      at('bytes').querySelectorAll('[data-byte="' + n + '"]').forEach(cell => cell.classList.add(it.isWrite ? 'wrote' : 'read'));
    }
  }
}

// What a byte is, and the accesses of the run to it.
const accessesOf = n => (now.hasCounts ? now.ran.accesses.filter(it => it.memory === now.memory && it.at <= n >> 2 && n >> 2 < it.at + it.count) : []);
function byteTip(n, side) {
  const byte = now.bytes[side][n], bit = 8 * (n & 3), made = accessesOf(n);
  const out = ['byte ' + n + ' ' + side + ' the run = ' + byte + (byte > 31 && byte < 127 ? ", '" + String.fromCharCode(byte) + "'" : '') + '; word ' + (n >> 2) + ', bits ' + bit + ' to ' + (bit + 7)];
  for (const it of made.slice(-6)) {
    const from = candidates[it.place];
    out.push((it.isWrite ? 'written' : 'read') + ' at step ' + (it.step + 1) + ' by ' + it.place + (from.length === 1 ? ', line ' + from[0] : ''));
  }
  if (made.length > 6) out.push('and ' + several(made.length - 6, 'time') + ' before');
  return out.join('\n');
}

// Runs the input of the page as it is now. The run of nova has nova's outcome, and its replay is held to that and to nova's counts.
function runInput(isOurs) {
  now.isOurs = isOurs;
  now.ran = isOurs ? runCode(code, copyMemory(now.input), mostSteps, keptSteps) : now.run.ran;
  const found = isOurs ? '' : now.run.found;
  now.hasCounts = found === '';
  const end = now.ran ? now.ran.end.replace(/^raised ([0-9]+)/, (said, n) => said + ' (' + exceptions.get(Number(n)) + ')') : '';
  const said = now.isOurs ? 'This is a run of the page\u2019s own engine, not the proved one: ' + end
    : found ? 'The replay isn\u2019t shown, since ' + found + '. The proved run: ' + lines(now.run.outcome)[0] : '\u2713 The replay agrees with the proved run: ' + end;
  at('trust').className = found || isOurs ? 'wrong' : 'right';
  at('trust').textContent = said;
  if (isOurs) {
    const again = document.createElement('button');
    again.textContent = 'back to the proved run';
    again.onclick = () => startWith(now.run);
    at('trust').append(' ', again);
  }
  at('time').hidden = !now.hasCounts;
  now.after = isOurs ? now.ran.memory : readMemory(now.run.outcome);
  showCounts();
  showMemory();
  if (now.hasCounts) showSteps();
}
function startWith(run) {
  now.run = run;
  now.step = -1;
  now.input = copyMemory(run.memory);
  at('outcome-text').textContent = run.outcome;
  at('profile-text').textContent = run.profileText;
  all('#runs button').forEach((it, n) => it.setAttribute('aria-selected', runs[n] === run));
  put('given', now.input.args.length === 0 ? '' : 'arguments ' + now.input.args.map((word, n) => '<input aria-label="argument ' + (n + 1) + '" maxlength="8" data-arg="' + n + '" value="' + hex(word) + '">').join(' '));
  runInput(false);
}

// Changes of the input.
on(at('given'), 'change', event => {
  const cell = event.target;
  if (!/^[0-9a-fA-F]{1,8}$/.test(cell.value)) cell.value = hex(now.input.args[Number(cell.dataset.arg)]);
  now.input.args[Number(cell.dataset.arg)] = parseInt(cell.value, 16);
  runInput(true);
});
function editByte(cell) {
  const n = Number(cell.dataset.byte), field = document.createElement('input');
  field.maxLength = 2;
  field.value = cell.textContent;
  field.setAttribute('aria-label', 'byte ' + n);
  cell.replaceChildren(field);
  field.focus();
  field.select();
  let isLeft = false;
  const leave = next => {
    if (isLeft) return;
    isLeft = true;
    const byte = /^[0-9a-fA-F]{1,2}$/.test(field.value) ? parseInt(field.value, 16) : now.bytes.before[n];
    const words = now.input[now.memory], shift = 24 - 8 * (n & 3);
    if (byte === now.bytes.before[n]) {
      cell.textContent = hex(byte, 2);
    } else {
      words[n >> 2] = (words[n >> 2] & ~(255 << shift)) | byte << shift;
      runInput(true);
    }
    const after = next ? at('bytes').querySelector('.before [data-byte="' + (n + 1) + '"]') : null;
    if (after) editByte(after);
  };
  field.onblur = () => leave(false);
  field.onkeydown = event => {
    if (event.key === 'Enter' || event.key === 'Tab' && !event.shiftKey) {
      event.preventDefault();
      leave(true);
    } else if (event.key === 'Escape') {
      field.value = '';
      leave(false);
    }
  };
}
on(at('bytes'), 'click', event => {
  const cell = event.target.closest('[data-byte]');
  if (!cell) return;
  at('layout-at').value = Number(cell.dataset.byte) >> 2;
  const last = accessesOf(Number(cell.dataset.byte)).filter(it => it.isWrite).pop();
  if (cell.closest('.before')) {
    if (cell.firstElementChild === null) editByte(cell);
  } else if (last) goTo(last.step);
  showFields();
});
function lightBytes(from, size) {
  all('#packet .lit').forEach(it => it.classList.remove('lit'));
  for (let n = from; n < from + size; n += 1) at('bytes').querySelectorAll('[data-byte="' + n + '"]').forEach(it => it.classList.add('lit'));
}
for (const id of ['fields', 'layout-fields']) {
  on(at(id), 'mousemove', event => {
    const row = event.target.closest('[data-from]');
    lightBytes(row ? Number(row.dataset.from) : 0, row ? Number(row.dataset.size) : 0);
    if (row) row.classList.add('lit');
  });
}
on(at('bytes'), 'mousemove', event => {
  const cell = event.target.closest('[data-byte]'), n = cell ? Number(cell.dataset.byte) : -1;
  showTip(cell ? byteTip(n, cell.parentNode.className) : '', event);
  lightBytes(Math.max(0, n), n < 0 ? 0 : 1);
  for (const row of all('#packet tr[data-from]')) {
    if (Number(row.dataset.from) <= n && n < Number(row.dataset.from) + Number(row.dataset.size)) row.classList.add('lit');
  }
});
on(at('packet'), 'mouseleave', () => lightBytes(0, 0));
on(at('bytes'), 'mouseleave', event => showTip('', event));
on(at('layout'), 'change', showFields);
on(at('layout-at'), 'input', showFields);
