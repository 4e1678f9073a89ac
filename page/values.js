// The single-use form, what is live at its points, and which of its values the registers hold at each place of the code.

// A line of the form, which has no blanks, no `v` and a backslash for `<` in the page: what it does, defines and uses.
const valuesIn = it => (it ? it.split(',').map(n => 'v' + n) : []);
const DEFINED = /^([0-9,]+)=(?:(clone|~)([0-9]+)|(\w+)\[[0-9]+\]\(([0-9]+)\)|([0-9]+)(<<|>>|rol|[-+&|^])([0-9]+)|(\w+))$/;
const DONE = /^(?:if([0-9]+)([=!<>]+)([0-9]+)\{|jump([0-9]+)\(([0-9,]*)\)|end(?:raised([0-9]+))?\(([0-9,]*)\)|(\w+)\(([0-9]+)\)<-([0-9,]+))$/;
const SHIFTS = { '<<': 'SHL', '>>': 'SHR', rol: 'ROL' }, OPERATIONS = { '+': 'ADD', '-': 'SUB', '&': 'AND', '|': 'OR', '^': 'XOR' }, FAILS = { '==': 'NZ', '!=': 'Z', '<': 'C', '>=': 'NC' };
function readNode(line) {
  const row = { line, op: '', defines: [], uses: [], next: -1, depth: 1 }, isDefined = line[0] <= '9', m = (isDefined ? DEFINED : DONE).exec(line);
  if (!m) return row;
  if (isDefined) {
    row.defines = valuesIn(m[1]);
    row.uses = valuesIn(m[3] || m[5] || m[6]);
    row.op = m[2] === 'clone' ? 'clone' : m[4] ? 'read' : m[9] ? 'literal' : m[2] || SHIFTS[m[7]] ? 'un' : 'alu';
    row.memory = m[4];
    row.operation = m[2] === '~' ? 'NOT' : SHIFTS[m[7]] || OPERATIONS[m[7]];
    row.sign = m[7];
    row.word = Number(m[9]);
    row.literal = m[9];
    if (row.op === 'alu') row.uses.push('v' + m[8]);
    else row.shift = Number(m[8] || 0);
    return row;
  }
  row.op = m[1] ? 'if' : m[4] ? 'jump' : m[8] ? 'write' : 'halt';
  row.uses = m[1] ? ['v' + m[1], 'v' + m[3]] : valuesIn(m[8] ? m[9] + ',' + m[10] : m[5] || m[7]);
  row.sign = m[2];
  row.fails = FAILS[m[2]];
  if (m[4]) row.next = Number(m[4]);
  row.exception = Number(m[6] || 0);
  row.memory = m[8];
  return row;
}
// A line as people read it.
function textOf(row) {
  const [x, y] = row.uses, list = row.uses.join(', ');
  const said = {
    clone: 'clone ' + x,
    read: row.memory + '[' + row.defines.length + '](' + x + ')',
    un: row.operation === 'NOT' ? '~' + x : x + ' ' + row.sign + ' ' + row.shift,
    alu: x + ' ' + row.sign + ' ' + y,
    literal: row.literal,
    if: 'if ' + x + ' ' + row.sign + ' ' + y + ' {',
    jump: 'jump ' + row.next + '(' + list + ')',
    halt: 'end ' + (row.exception ? 'raised ' + row.exception + ' ' : '') + '(' + list + ')',
    write: row.memory + '(' + x + ') <- ' + row.uses.slice(1).join(', '),
  };
  return row.defines.join(', ') + (row.defines.length > 0 ? ' = ' : '') + (said[row.op] || row.line);
}

// The labels of the form: parameters, lines with their depth, and what each clone is of.
function readForm(text) {
  const forms = new Map();
  let form = null, depth = 1;
  for (const line of text.replace(/\\/g, '<').split('\n')) {
    const head = line[0] === 'l' ? /^label([0-9]+)\(([0-9,]*)\)/.exec(line) : null;
    if (head) {
      const roots = new Map();
      form = { number: Number(head[1]), params: valuesIn(head[2]), rows: [], next: new Set(), literals: new Map(), made: new Map(), root: value => roots.get(value) || value };
      form.clone = row => row.defines.forEach(it => roots.set(it, form.root(row.uses[0])));
      forms.set(form.number, form);
      depth = 1;
    } else if (form && line !== '') {
      const row = readNode(line);
      if (line === '}') depth -= 1;
      row.depth = depth;
      form.rows.push(row);
      for (const it of row.defines) form.made.set(it, row);
      if (row.op === 'if') depth += 1;
      else if (row.op === 'clone') form.clone(row);
      else if (row.op === 'literal') form.literals.set(row.defines[0], row.word);
      else if (row.op === 'jump') form.next.add(row.next);
    }
  }
  return forms;
}

// Whether two values of a label are one word: one literal, or computed alike, or handed on alike by each jump to the label, also round a loop.
function isSame(forms, form, x, y, seen) {
  if (x === y || seen.has(x + ' ' + y)) return true;
  seen.add(x + ' ' + y);
  const a = form.made.get(x), b = form.made.get(y), n = form.params.indexOf(x), m = form.params.indexOf(y);
  if (a && b) return ['un', 'alu', 'literal'].includes(a.op) && ['op', 'operation', 'shift', 'literal'].every(it => a[it] === b[it]) && a.uses.every((use, k) => isSame(forms, form, form.root(use), form.root(b.uses[k]), seen));
  if (n < 0 || m < 0 || form.number === 0) return false;
  return [...forms.values()].every(from => !from.next.has(form.number) || from.rows.every(row => row.next !== form.number || isSame(forms, from, from.root(row.uses[n]), from.root(row.uses[m]), seen)));
}

// Goes along the lines of a label from the last up, and tells of each the values that are live there: those that are used there or below, and defined above. Of
// clones it is the value that they are of.
function walkLive(form, tell) {
  const second = [];
  let live = new Set();
  for (let n = form.rows.length - 1; n >= 0; n -= 1) {
    const row = form.rows[n];
    if (row.line === '}') {
      second.push(live);
      live = new Set();
      continue;
    }
    if (row.op === 'halt' || row.op === 'jump') live = new Set();
    if (row.op === 'if') for (const it of second.pop()) live.add(it);
    for (const it of row.defines) live.delete(it);
    if (row.op !== 'clone') for (const it of row.uses) live.add(form.root(it));
    tell(row, live);
  }
}

// A word of the program that a register holds is a value, once something tells. One register can be two values where both are one literal, or computed alike.
const merge = (token, value, state) => {
  if (!token || !value || token.value === value) return;
  if (token.value && !isSame(state.forms, state.form, value, token.value, new Set())) state.isWrong = true;
  token.value = value;
};

// Goes along the code of a label beside the form: which line each instruction is, where that is certain, and which word each register holds. An instruction
// that was taken out leaves lines without one. Where the two don't fit, nothing is said of the label.
function followLabel(code, forms, form, start, end, entry) {
  const held = new Map(entry), arms = new Map(), state = { isWrong: false, forms, form }, out = [];
  const slots = new Map(), rows = form.rows.filter(row => row.op !== 'clone' && row.op !== '');
  let at = 0, now = new Map(held);
  const token = register => {
    if (!now.has(register)) {
      const it = { value: null };
      now.set(register, it);
      if (!entry.has(register) && REGISTERS[register][0] < 'C') entry.set(register, it);
    }
    return now.get(register);
  };
  const root = value => form.root(value);
  const fits = (row, it) => {
    if (row.op === 'literal') return it.op === 'immed' && it.value === row.word;
    if (row.op === 'un' || row.op === 'alu') return it.op === row.op && it.operation === row.operation && (it.shift || 0) === (row.shift || 0);
    if (row.op === 'read' || row.op === 'write') return it.op === row.op && it.memory === row.memory && it.count === (row.op === 'read' ? row.defines.length : row.uses.length - 1);
    if (row.op === 'halt') return it.op === 'halt' && it.exception === row.exception && it.count === row.uses.length;
    if (row.op === 'jump') return it.op === 'br' && it.condition === 'ALWAYS';
    return row.op === 'if' && it.op === 'br' && it.condition !== 'ALWAYS';
  };
  for (let place = start; place < end; place += 1) {
    if (arms.has(place)) now = new Map(arms.get(place));
    const it = code[place], isCopy = it.op === 'un' && it.operation === 'COPY' && it.to !== NONE;
    const isTest = it.to === NONE, isSpill = it.kind.startsWith('spill');
    const note = { place, row: null, reads: new Map(), writes: new Map() };
    out.push(note);
    if (isCopy) {
      const word = token(it.x);
      note.reads.set(it.x, word);
      now.set(it.to, word);
      note.writes.set(it.to, word);
    } else if (isSpill) {
      it.list.forEach((register, n) => {
        const slot = it.offset + n;
        if (it.op === 'write') slots.set(slot, token(register));
        else now.set(register, slots.get(slot) || { value: null });
        (it.op === 'write' ? note.reads : note.writes).set(register, now.get(register));
      });
    } else if (isTest) {
      const row = rows[at];
      for (const register of it.reads) note.reads.set(register, token(register));
      // A comparison of its operands, or of one with the literal 0.
      const next = rows.slice(at).find(other => other.op !== 'literal');
      if (next && next.op === 'if' && it.op === 'alu') {
        merge(token(it.x), root(next.uses[0]), state);
        merge(token(it.y), root(next.uses[1]), state);
      }
      note.row = next || row;
    } else {
      while (at < rows.length && !fits(rows[at], it) && (rows[at].op === 'literal' || rows[at].op === 'un' || rows[at].op === 'alu')) at += 1;
      const row = rows[at];
      if (!row || !fits(row, it)) return null;
      at += 1;
      note.row = row;
      for (const register of it.reads) note.reads.set(register, token(register));
      if (row.op === 'alu' || row.op === 'un') it.reads.forEach((register, n) => merge(token(register), root(row.uses[n]), state));
      if (row.op === 'read') merge(token(it.x), root(row.uses[0]), state);
      if (row.op === 'write') [it.x, ...it.list].forEach((register, n) => merge(token(register), root(row.uses[n]), state));
      if (row.op === 'halt') it.reads.forEach((register, n) => merge(token(register), root(row.uses[n]), state));
      it.writes.forEach((register, n) => {
        now.set(register, { value: row.defines[n] || null });
        note.writes.set(register, now.get(register));
      });
      if (row.op === 'if' && it.condition === row.fails) arms.set(it.target, new Map(now));
      if (row.op === 'if' && it.condition !== row.fails) {
        // The branch is that of the arm, which is a jump alone; behind it stands the other arm.
        while (at < rows.length && (rows[at].op === 'literal' || rows[at].op === 'un' || rows[at].op === 'alu')) at += 1;
        if (at === rows.length || rows[at].op !== 'jump') return null;
        note.arm = rows[at];
        note.held = new Map(now);
        at += 1;
      }
      if (row.op === 'jump') note.held = new Map(now);
    }
    if (state.isWrong) return null;
  }
  return out;
}

// What each place of the code does with values: the line of the form that it is, and the values of its registers.
function followCode(listing, forms) {
  const notes = [], entries = new Map();
  const ends = listing.labels.map((_, n) => (n + 1 < listing.labels.length ? listing.labels[n + 1].start : listing.code.length));
  listing.labels.forEach((label, n) => {
    const form = forms.get(label.number), entry = new Map();
    if (!form) return;
    if (label.number === 0) form.params.forEach((value, k) => entry.set(k, { value }));
    const found = followLabel(listing.code, forms, form, label.start, ends[n], entry);
    if (!found) return;
    entries.set(label.number, entry);
    for (const note of found) notes[note.place] = Object.assign(note, { label: label.number });
  });
  // A jump hands words on to the registers of the label's parameters.
  for (const note of notes) {
    const row = note && (note.arm || note.row);
    if (!row || row.op !== 'jump' || !note.held || !entries.has(row.next)) continue;
    const from = forms.get(note.label), to = forms.get(row.next), state = { isWrong: false, forms, form: from };
    for (const [register, word] of entries.get(row.next)) {
      const place = word.value ? to.params.indexOf(word.value) : -1, given = note.held.get(register);
      if (place >= 0 && given) merge(given, from.root(row.uses[place]), state);
    }
    if (state.isWrong) for (const it of notes) if (it && it.label === note.label) notes[it.place] = undefined;
  }
  return notes;
}
