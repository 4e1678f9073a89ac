// The source, and which of its places the accesses of a run come from. The interpreter of `nova` notes each write with where its statement stands in the
// source; the code makes the same writes in the same order. Where it notes fetches, calls and the last expression too, these are tied alike.

// The source with blanks for comments, its functions in order, and where its lines begin. Places are bytes; only texts of ASCII have the same as characters.
function readSource(text) {
  const plain = text.replace(/\/\/.*/g, it => ' '.repeat(it.length));
  const isAscii = /^[\0-\x7f]*$/.test(text), starts = [0], bytes = new TextEncoder().encode(text);
  const decoded = at => (isAscii ? at : new TextDecoder().decode(bytes.slice(0, at)).length);
  for (const it of text.matchAll(/\n/g)) starts.push(it.index + 1);
  const functions = [...plain.matchAll(/\b(?:fun|and)\s+(\w+)\s*\[/g)].map(it => ({ name: it[1], from: it.index }));
  const lineAt = at => starts.filter(it => it <= at).length;
  const functionAt = at => (functions.filter(it => it.from <= at).pop() || { name: '' }).name;
  return { text, plain, functions, tails: tailsOf(plain), decoded, lineAt, functionAt };
}

// The place behind the bracket that closes the one at a place.
function behind(plain, at) {
  let depth = 0;
  for (let n = at; n < plain.length; n += 1) {
    if ('([{'.includes(plain[n])) depth += 1;
    if (')]}'.includes(plain[n])) depth -= 1;
    if (depth === 0) return n + 1;
  }
  return plain.length;
}

// The place where the expression that begins at a place ends: at a `;`, an `else` or a closing bracket that stands in no other.
function endOf(plain, at) {
  const ends = /[;,)\]}]|\belse\b|[([{]/g;
  ends.lastIndex = at;
  for (let found = ends.exec(plain); found; found = ends.exec(plain)) {
    if (!'([{'.includes(found[0])) return found.index;
    ends.lastIndex = behind(plain, found.index);
  }
  return plain.length;
}

// The last expressions of `main`, one of which is the result of a run that ends.
function tailsOf(plain) {
  const out = [], skip = at => at + /^\s*/.exec(plain.slice(at))[0].length, matched = (form, at) => form.exec(plain.slice(at, at + 400));
  // Both give the place behind what they read.
  const block = start => {
    let at = skip(start);
    for (;;) {
      const isLet = matched(/^let\b/, at), store = matched(/^(?:sram|sdram|scratch)\s*\(/, at);
      const value = isLet ? at : store ? behind(plain, at + store[0].length - 1) : -1;
      if (value < 0 || store && !matched(/^\s*<-/, value)) return tail(at);
      at = skip(statementEnd(value) + 1);
    }
  };
  const statementEnd = start => {
    for (let at = endOf(plain, start); ; at = endOf(plain, at + 4)) if (plain[at] !== 'e') return at;
  };
  const tail = start => {
    const at = skip(start), word = (matched(/^(?:if|raise|try)\b/, at) || [''])[0];
    const opened = (from, open) => plain.indexOf(open, from);
    if (word === 'if') {
      const next = skip(block(behind(plain, opened(at, '('))));
      return plain.startsWith('else', next) ? block(next + 4) : next;
    }
    if (word === 'raise') return behind(plain, opened(at, '['));
    if (word === 'try') {
      const body = opened(at, '{'), handler = opened(behind(plain, opened(behind(plain, body), '[')), '{');
      block(body + 1);
      block(handler + 1);
      return behind(plain, handler);
    }
    const end = endOf(plain, at), inner = plain.slice(at, end).trimEnd();
    if (inner[0] === '(' && behind(inner, 0) === inner.length && partsOf(inner.slice(1, -1)).length === 1) block(at + 1);
    else out.push({ from: at, to: at + inner.length });
    return end;
  };
  const main = /\b(?:fun|and)\s+main\s*\[/.exec(plain), params = main ? behind(plain, main.index + main[0].length - 1) : 0;
  // The result's type may be a record.
  const type = main ? /^\s*:\s*/.exec(plain.slice(params)) : null, first = type ? params + type[0].length : 0;
  if (type) block(plain.indexOf('{', plain[first] === '{' || plain[first] === '(' ? behind(plain, first) : first) + 1);
  return out;
}

// The parts of a text between commas that stand in no bracket.
function partsOf(text) {
  const out = [''];
  let depth = 0;
  for (const c of text) {
    if ('([{'.includes(c)) depth += 1;
    if (')]}'.includes(c)) depth -= 1;
    if (c === ',' && depth === 0) out.push('');
    else out[out.length - 1] += c;
  }
  return out.map(it => it.trim()).filter(it => it !== '');
}

// The events of the interpreter: `s` with the place of a write, `f` of a fetch, `c` with the function that is called, and `b` with the level that is come back
// to. Behind them stand where the run was at last, or nothing where only writes are noted, and the sum of all accesses.
function readEvents(text) {
  const [list, tail] = text.split('\n');
  if (tail === undefined) return null;
  const numbers = tail.split(' ').map(Number), sum = numbers.pop(), [here, last] = numbers;
  return { list: [...list.matchAll(/([cbfs])([0-9]+)/g)].map(it => ({ kind: it[1], at: Number(it[2]) })), here, last, sum, hasAll: here !== undefined };
}
const isAccess = event => event.kind === 'f' || event.kind === 's';

// The sum of accesses by which the interpreter's are known to be the same.
function sumOf(accesses) {
  let sum = 2166136261;
  for (const it of accesses) {
    const unit = it.memory === 'sdram' ? 2 : 1, memory = ['sram', 'sdram', 'scratch'].indexOf(it.memory);
    for (const n of [memory + (it.isWrite ? 3 : 0), it.at / unit, it.count]) sum = Math.imul(sum ^ n, 16777619);
  }
  return sum >>> 0;
}

// The functions that are in progress between one access and the next: for each number of accesses that are done, a set of names.
function functionsBetween(events, names) {
  const stack = ['main'];
  let now = new Set(stack);
  const out = [now];
  for (const event of events.list) {
    if (event.kind === 'c') stack.push(names[event.at] || '');
    if (event.kind === 'b') stack.length = event.at + 1;
    if (isAccess(event)) {
      now = new Set();
      out.push(now);
    }
    now.add(stack[stack.length - 1]);
  }
  return out;
}

// What a run tells of the source: for each place of the code that made an access or ended the run, where that stands in the source, and for each label's place the
// functions that may have been in progress there. None of it, where the accesses aren't those of the interpreter.
function linksOf(code, source, ran, events, mostEvents, exceptions) {
  const links = { places: new Map(), labels: new Map(), isKnown: false };
  if (!events) return links;
  const noted = events.list.filter(isAccess), isCut = events.list.length >= mostEvents;
  const made = ran.accesses.filter(it => !code[it.place].kind.startsWith('spill') && (events.hasAll || it.isWrite));
  if (events.hasAll && ran.fault && !ran.fault.isWrite) made.push(ran.fault);
  const isSame = noted.length === made.length || isCut && noted.length < made.length;
  if (!isSame || sumOf(made.slice(0, noted.length)) !== events.sum || noted.some((event, n) => (event.kind === 's') !== made[n].isWrite)) return links;
  links.isKnown = true;
  const tie = (place, at) => {
    if (!links.places.has(place)) links.places.set(place, new Set());
    links.places.get(place).add(at);
  };
  noted.forEach((event, n) => tie(made[n].place, source.decoded(event.at)));
  if (!events.hasAll) return links;
  const end = code[ran.last], raised = end.op === 'halt' && end.exception > 0 ? raiseAt(source, source.decoded(events.last), exceptions.get(end.exception)) : null;
  if (raised) tie(ran.last, raised.index);
  else if (end.op === 'halt' && end.exception === 0 || ran.fault && ran.fault.isWrite) {
    const here = source.decoded(events.here), found = source.tails.find(it => it.from <= here && here < it.to);
    tie(ran.last, end.op === 'halt' && found ? found.from : here);
  }
  const between = functionsBetween(events, source.functions.map(it => it.name));
  let done = 0;
  ran.places.forEach((place, step) => {
    while (done < made.length && made[done].step < step) done += 1;
    if (isCut && done >= noted.length || !between[done]) return;
    const before = links.labels.get(place) || between[done];
    let found = before;
    for (const it of before) if (!between[done].has(it)) found = new Set([...before].filter(other => between[done].has(other)));
    links.labels.set(place, found);
  });
  return links;
}

// The raise of an exception in whose brackets a place stands.
function raiseAt(source, at, name) {
  const found = [...source.plain.matchAll(/\braise\s+(\w+)\s*/g)].filter(it => it[1] === name && it.index <= at);
  return found.reverse().find(it => {
    const open = it.index + it[0].length;
    return at < open || source.plain[open] === '[' && at < behind(source.plain, open);
  });
}

// The names of the words that the source's access or raise at a place moves; none where it has more or fewer parts than the code.
const isName = it => /^[A-Za-z_][\w.]*$/.test(it) && it !== '_';
function namesAt(source, layouts, at, count, what) {
  const { plain } = source, fitting = parts => (parts.length === count ? parts.map(it => (isName(it) ? it : '')) : []);
  const inBrackets = (text, open) => (text[0] === open ? partsOf(text.slice(1, -1)) : [text]);
  if (what === 'read') {
    const before = /\blet\s+(\w+|\([^()]*\))\s*=\s*(?:unpack\s*\[\s*(\w+)\s*\]\s*\(\s*)?$/.exec(plain.slice(0, at));
    if (!before) return [];
    if (!before[2]) return fitting(inBrackets(before[1], '('));
    const layout = layouts.find(it => it.name === before[2]);
    if (!layout || !isName(before[1]) || layout.words !== count) return [];
    return Array.from({ length: count }, (_, n) => {
      const field = layout.fields.find(it => it.bit === 32 * n && it.size === 32);
      return before[1] + (field ? '.' + field.path : ', word ' + n);
    });
  }
  if (what === 'write') {
    const open = plain.indexOf('(', at), arrow = /^\s*<-\s*/.exec(plain.slice(behind(plain, open)));
    if (open < 0 || !arrow) return [];
    const from = behind(plain, open) + arrow[0].length;
    const end = plain[from] === '(' ? behind(plain, from) : plain.indexOf(';', from);
    return fitting(inBrackets(plain.slice(from, end).trim(), '('));
  }
  const raised = raiseAt(source, at, what);
  const open = raised ? raised.index + raised[0].length : -1;
  return raised && plain[open] === '[' ? fitting(partsOf(plain.slice(open + 1, behind(plain, open) - 1))) : [];
}

// The names of main's parameters.
function mainNames(source, count) {
  const found = /\bfun\s+main\s*\[([^\]]*)\]/.exec(source.plain);
  const names = found ? partsOf(found[1]).map(it => it.split(':')[0].trim()) : [];
  return names.length === count ? names : [];
}
