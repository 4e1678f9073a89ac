// What of the source an instruction comes from, and the names of labels and values.

// What an instruction does that a text of the source does, too: an access, a raise, or the end.
function keyOf(it, exceptions) {
  if (it.op === 'halt') return it.exception > 0 ? 'raise ' + exceptions.get(it.exception) : 'the end';
  if (it.kind.startsWith('spill') || it.op !== 'read' && it.op !== 'write') return '';
  return it.op === 'read' ? 'read ' + it.memory + ' ' + it.count : 'write ' + it.memory;
}

// The accesses, raises and ends of the source: where each stands, how many words it moves, and which of them are numbers; null where the text doesn't tell.
const wordsIn = parts => parts.map(it => (/^(?:0[xX][0-9a-fA-F]+|[0-9]+)$/.test(it) ? Number(it) : null));
function actsOf(source, layouts) {
  const { plain } = source, out = [];
  for (const it of plain.matchAll(/\b(sram|sdram|scratch)\s*(?:\[\s*(\w+)\s*\]\s*)?\(|\braise\s+(\w+)\s*\[/g)) {
    const open = it.index + it[0].length - 1, close = behind(plain, open);
    if (it[3]) {
      const words = wordsIn(partsOf(plain.slice(open + 1, close - 1)));
      out.push({ key: 'raise ' + it[3], at: it.index, count: null, words });
    } else {
      out.push(it[2] ? { key: 'read ' + it[1] + ' ' + Number(it[2]), at: it.index, count: null, words: [] } : { key: 'write ' + it[1], at: it.index, count: storedCount(plain, layouts, close), words: [] });
    }
  }
  for (const it of source.tails) {
    const words = plain[it.from] === '(' ? wordsIn(partsOf(plain.slice(it.from + 1, it.to - 1))) : wordsIn([plain.slice(it.from, it.to).trim()]);
    out.push({ key: 'the end', at: it.from, count: null, words });
  }
  return out;
}
// How many words a store takes, where its text tells: those of a tuple or of a layout, or one of an operator.
function storedCount(plain, layouts, from) {
  const arrow = /^\s*<-\s*/.exec(plain.slice(from));
  if (!arrow) return null;
  const begin = from + arrow[0].length, value = plain.slice(begin, endOf(plain, begin)).trim(), isWhole = value[0] === '(' && behind(value, 0) === value.length;
  const layout = /^pack\s*\[\s*(\w+)\s*\]\s*\(/.exec(value), found = layout && layouts.find(it => it.name === layout[1]);
  if (found && behind(value, layout[0].length - 1) === value.length) return found.words;
  if (isWhole && partsOf(value.slice(1, -1)).length > 1) return partsOf(value.slice(1, -1)).length;
  return /^(?:[\w.]+\s*(?:[-+&|^]|<<|>>)|[0-9]|~)/.test(value) ? 1 : null;
}

// The places of the source which may do what an instruction does: all that do such a thing, but for those with another count or another number.
function actsFor(acts, it, exceptions, note, forms) {
  const key = keyOf(it, exceptions), row = note && note.row, form = note && forms.get(note.label);
  const literals = row && form && row.op === 'halt' ? row.uses.map(value => form.literals.get(form.root(value))) : [];
  const isOther = act => act.count !== null && act.count !== it.count || act.words.length === literals.length && act.words.some((word, n) => word !== null && literals[n] !== undefined && word !== literals[n]);
  return key === '' ? [] : acts.filter(act => act.key === key && !isOther(act)).map(act => act.at);
}

// The functions of labels: the one that was in progress each time that the label was entered, or else those that its accesses come from.
function labelNamesOf(listing, source, runs, origins) {
  const names = new Map();
  listing.labels.forEach(({ number, start }, n) => {
    const sets = runs.flatMap(run => (run.links && run.links.labels.has(start) ? [run.links.labels.get(start)] : []));
    const all = number === 0 ? ['main'] : sets.length > 0 ? [...sets[0]].filter(it => sets.every(set => set.has(it))) : [];
    const end = n + 1 < listing.labels.length ? listing.labels[n + 1].start : listing.code.length;
    const found = new Set(origins.slice(start, end).flatMap(it => {
      const functions = [...new Set(it.map(source.functionAt))];
      return functions.length === 1 ? functions : [];
    }));
    if (all.length === 1) names.set(number, all[0]);
    else if (found.size > 0 && found.size < 3) names.set(number, 'with ' + [...found].join(', '));
  });
  return names;
}

// The names of values: of main's parameters, of what a `let` reads, and of what is written or raised.
function valueNamesOf(source, layouts, forms, notes, origins, exceptions) {
  const names = new Map();
  const nameValue = (value, title) => {
    if (!value || !title) return;
    const titles = names.get(value) || [];
    if (!titles.includes(title)) names.set(value, titles.concat(title));
  };
  if (forms.has(0)) mainNames(source, forms.get(0).params.length).forEach((title, n) => nameValue(forms.get(0).params[n], title));
  notes.forEach((note, place) => {
    if (!note || !note.row || origins[place].length !== 1) return;
    const [found] = origins[place], { row } = note, root = forms.get(note.label).root;
    const isRead = row.op === 'read', uses = row.op === 'write' ? row.uses.slice(1) : row.uses;
    const what = row.op === 'halt' && row.exception > 0 ? exceptions.get(row.exception) : row.op;
    if (isRead) namesAt(source, layouts, found, row.defines.length, 'read').forEach((title, n) => nameValue(row.defines[n], title));
    else if (row.op === 'write' || row.op === 'halt') namesAt(source, layouts, found, uses.length, what).forEach((title, n) => nameValue(root(uses[n]), title));
  });
  nameParams(forms, names, nameValue);
  return names;
}
// A parameter of a label has the name that all words have which jumps hand on for it.
function nameParams(forms, valueNames, nameValue) {
  const handed = [];
  for (const form of forms.values()) {
    for (const row of form.rows) if (row.op === 'jump' && forms.has(row.next)) forms.get(row.next).params.forEach((param, n) => handed.push([param, form.root(row.uses[n])]));
  }
  const names = new Map([...valueNames].map(([value, titles]) => [value, titles[0]])), isParam = new Set(handed.map(it => it[0]));
  const users = new Map(handed.map(it => [it[1], []])), left = [];
  for (const [param, value] of handed) {
    users.get(value).push(param);
    if (!isParam.has(value) && !names.has(value)) names.set(value, '');
  }
  left.push(...names.keys());
  while (left.length > 0) {
    const value = left.pop();
    for (const param of users.get(value) || []) {
      if (valueNames.has(param) || names.get(param) === '' || names.get(param) === names.get(value)) continue;
      names.set(param, names.has(param) ? '' : names.get(value));
      left.push(param);
    }
  }
  for (const [value, title] of names) if (!valueNames.has(value)) nameValue(value, title);
}
