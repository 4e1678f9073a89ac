'use strict';
// The instructions of a listing, an engine that runs them by the rules of docs/MACHINE.md, and what is live before each of them.

const BANKS = [['A', 16], ['B', 16], ['L', 8], ['LD', 8], ['S', 8], ['SD', 8]];
const REGISTERS = BANKS.flatMap(([bank, size]) => Array.from({ length: size }, (_, n) => bank + n));
const NONE = REGISTERS.length;
const NUMBER = new Map([...REGISTERS.map((name, n) => [name, n]), ['none', NONE]]);
const SPILL_BASE = 512;
// Bits of the flags in a live set.
const ZERO = 1, CARRY = 2;
const CONDITIONS = { ALWAYS: 0, Z: ZERO, NZ: ZERO, C: CARRY, NC: CARRY };

const hex = (n, wide = 8) => (n >>> 0).toString(16).padStart(wide, '0');
const bankOf = register => REGISTERS[register].replace(/[0-9]+$/, '');
const several = (n, what) => n + ' ' + what + (n === 1 ? '' : 's');

// One line of a listing: what it reads and writes, and where it goes on.
function instruction(text, kind) {
  const w = text.split(' ');
  const it = { text, kind, words: w, op: w[0], reads: [], writes: [], readsFlags: 0, writesFlags: 0, target: -1, goesOn: true };
  const number = name => NUMBER.get(name);
  const run = (bank, from, count) => Array.from({ length: count }, (_, n) => number(bank + (from + n)));
  if (w[0] === 'alu') {
    Object.assign(it, { operation: w[2], to: number(w[1]), x: number(w[3]), y: number(w[4]), writesFlags: ZERO | CARRY });
    it.reads = [it.x, it.y];
    it.writes = [it.to];
  } else if (w[0] === 'un') {
    const isShift = w.length === 5;
    Object.assign(it, { operation: w[2], to: number(w[1]), shift: isShift ? Number(w[3]) : 0, x: number(w[isShift ? 4 : 3]), writesFlags: ZERO | CARRY });
    it.reads = [it.x];
    it.writes = [it.to];
  } else if (w[0] === 'immed') {
    Object.assign(it, { to: number(w[1]), value: (Number(w[2]) << Number(w[3])) >>> 0 });
    it.writes = [it.to];
  } else if (w[0] === 'br') {
    Object.assign(it, { condition: w[1], target: Number(w[2].slice(1)), readsFlags: CONDITIONS[w[1]], goesOn: w[1] !== 'ALWAYS' });
  } else if (w[0] === 'read' || w[0] === 'write') {
    const isWide = w[1] === 'sdram';
    Object.assign(it, { memory: w[1], count: Number(w[3]), x: number(w[4]), offset: Number(w[5]), unit: isWide ? 2 : 1 });
    it.list = run((w[0] === 'read' ? 'L' : 'S') + (isWide ? 'D' : ''), Number(w[2]), it.count);
    it.reads = w[0] === 'read' ? [it.x] : [it.x, ...it.list];
    it.writes = w[0] === 'read' ? it.list : [];
  } else if (w[0] === 'halt') {
    Object.assign(it, { exception: Number(w[1]), count: Number(w[2]), goesOn: false });
    it.reads = run('A', 0, it.count);
  }
  it.writes = it.writes.filter(register => register !== NONE);
  return it;
}

// A listing, as `nova list` prints it or without places and with the first letters of remarks.
const KINDS = { mbb: 'move between banks', m: 'move', l: 'literal', s: 'spill' };
function readListing(text) {
  const listing = { code: [], labels: [] };
  for (const line of text.split('\n')) {
    const label = /^L([0-9]+):$/.exec(line), row = /^(?: *[0-9]+ +)?([a-z][^;]*?) *(?:; ?(.*))?$/.exec(line);
    if (label) listing.labels.push({ number: Number(label[1]), start: listing.code.length });
    else if (row && !line.startsWith('params ')) listing.code.push(instruction(row[1], KINDS[row[2]] || row[2] || ''));
  }
  return listing;
}

// The memories of a memory text, as words.
function readMemory(text) {
  const memory = { sram: new Uint32Array(0), sdram: new Uint32Array(0), scratch: new Uint32Array(1024), args: [] };
  for (const line of text.split('\n')) {
    const w = line.split(' ');
    if (w[0] === 'memory') {
      memory.sram = new Uint32Array(Number(w[1]));
      memory.sdram = new Uint32Array(2 * Number(w[2]));
    } else if (w[0] === 'args') {
      memory.args = w.slice(1).map(word => parseInt(word, 16));
    } else if (memory[w[0]]) {
      const at = Number(w[1]) * (w[0] === 'sdram' ? 2 : 1);
      w.slice(2).forEach((word, n) => { memory[w[0]][at + n] = parseInt(word, 16); });
    }
  }
  return memory;
}

const copyMemory = it => ({ sram: it.sram.slice(), sdram: it.sdram.slice(), scratch: it.scratch.slice(), args: it.args.slice() });

const ALU = {
  ADD: (x, y) => [x + y, x + y > 0xffffffff],
  SUB: (x, y) => [x - y, x >= y],
  AND: (x, y) => [x & y, false],
  OR: (x, y) => [x | y, false],
  XOR: (x, y) => [x ^ y, false],
};
const UN = {
  COPY: x => x,
  NOT: x => ~x,
  SHL: (x, k) => x << k,
  SHR: (x, k) => x >>> k,
  ROL: (x, k) => (x << k) | (x >>> (32 - k)),
};

// Runs code from place 0 for at most so many steps, and keeps what the first steps did. It changes the memory.
function runCode(code, memory, most, kept) {
  const registers = new Uint32Array(NONE + 1);
  const ran = { end: 'going', steps: 0, counts: new Float64Array(code.length), places: [], accesses: [], writes: [], writeCount: 0, fault: null, last: 0, memory };
  ran.history = REGISTERS.map(() => ({ steps: [], words: [] }));
  memory.args.forEach((word, n) => { registers[n] = word; });
  registers[NUMBER.get('B15')] = SPILL_BASE;
  let zero = false, carry = false, place = 0, isKept = true;
  const put = (register, word) => {
    registers[register] = word;
    if (isKept && register !== NONE) {
      ran.history[register].steps.push(ran.steps);
      ran.history[register].words.push(word >>> 0);
    }
  };
  const access = it => {
    const words = memory[it.memory], address = registers[it.x] + it.offset, at = address * it.unit;
    const made = { step: ran.steps, place, isWrite: it.op === 'write', memory: it.memory, at, count: it.count };
    if (at + it.count > words.length) {
      ran.end = 'fault ' + it.memory + ' ' + address;
      ran.fault = made;
      return false;
    }
    if (ran.accesses.length < kept) ran.accesses.push(made);
    if (it.op === 'read') {
      it.list.forEach((register, n) => put(register, words[at + n]));
    } else {
      it.list.forEach((register, n) => { words[at + n] = registers[register]; });
      if (it.memory !== 'scratch' || at < SPILL_BASE) {
        ran.writeCount += 1;
        if (ran.writes.length < 64) ran.writes.push('write ' + it.memory + ' ' + address + it.list.map(r => ' ' + hex(registers[r])).join(''));
      }
    }
    return true;
  };
  while (ran.steps < most) {
    const it = code[place];
    let next = place + 1, isOver = false;
    isKept = ran.steps < kept;
    if (isKept) ran.places.push(place);
    ran.counts[place] += 1;
    switch (it.op) {
      case 'alu': {
        const [word, isCarried] = ALU[it.operation](registers[it.x], registers[it.y]);
        carry = isCarried;
        zero = word >>> 0 === 0;
        put(it.to, word);
        break;
      }
      case 'un': {
        const word = UN[it.operation](registers[it.x], it.shift);
        carry = false;
        zero = word >>> 0 === 0;
        put(it.to, word);
        break;
      }
      case 'immed':
        put(it.to, it.value);
        break;
      case 'br': {
        const isTaken = it.condition === 'ALWAYS' || (it.readsFlags === ZERO ? zero : carry) === (it.condition.length === 1);
        if (isTaken) next = it.target;
        break;
      }
      case 'halt':
        ran.end = (it.exception === 0 ? 'ended' : 'raised ' + it.exception) + it.reads.map(r => ' ' + hex(registers[r])).join('');
        isOver = true;
        break;
      default:
        isOver = !access(it);
    }
    ran.steps += 1;
    ran.last = place;
    if (isOver) break;
    place = next;
  }
  return ran;
}

// The text of an outcome, as `nova run` prints it but for the name of an exception.
function outcomeText(ran) {
  const { sram, sdram, scratch } = ran.memory;
  const lines = [ran.end, 'writes ' + ran.writeCount, ...ran.writes, 'memory ' + sram.length + ' ' + sdram.length / 2];
  for (const [name, words, unit] of [['sram', sram, 1], ['sdram', sdram, 2], ['scratch', scratch.subarray(0, SPILL_BASE), 1]]) {
    for (let at = 0; at < words.length; at += 8) {
      const stretch = [...words.subarray(at, at + 8)];
      if (stretch.some(word => word !== 0)) lines.push(name + ' ' + at / unit + stretch.map(word => ' ' + hex(word)).join(''));
    }
  }
  return lines.join('\n') + '\n';
}

// Which registers and flags are live before each instruction: A and B, the transfer registers, and the flags, each as bits.
function liveBefore(code) {
  const size = code.length, live = [0, 1, 2].map(() => new Int32Array(size + 1)), uses = live.map(it => it.slice()), kills = live.map(it => it.slice());
  const before = Array.from({ length: size + 1 }, () => []), left = [], waits = new Uint8Array(size + 1).fill(1);
  code.forEach((it, n) => {
    for (const r of it.reads) uses[r >> 5][n] |= 1 << (r & 31);
    for (const r of it.writes) kills[r >> 5][n] |= 1 << (r & 31);
    uses[2][n] = it.readsFlags;
    kills[2][n] = it.writesFlags;
    if (it.goesOn) before[n + 1].push(n);
    if (it.target >= 0) before[it.target].push(n);
  });
  // Most jumps lead to labels that stand before their own: what stands first is worked out first.
  for (let n = size - 1, end = size; n >= 0; n -= 1) {
    if (n > 0 && code[n - 1].goesOn) continue;
    for (let place = n; place < end; place += 1) left.push(place);
    end = n;
  }
  while (left.length > 0) {
    const n = left.pop(), next = code[n].goesOn ? n + 1 : size, target = code[n].target < 0 ? size : code[n].target;
    let isSame = true;
    waits[n] = 0;
    for (let part = 0; part < 3; part += 1) {
      const bits = (live[part][next] | live[part][target]) & ~kills[part][n] | uses[part][n];
      if (bits !== live[part][n]) isSame = false;
      live[part][n] = bits;
    }
    if (isSame) continue;
    for (const other of before[n]) {
      if (waits[other] === 0) left.push(other);
      waits[other] = 1;
    }
  }
  return code.map((_, n) => live.map(part => part[n]));
}

const isLive = (set, register) => (set[register >> 5] >>> (register & 31) & 1) === 1;
const ones = bits => bits.toString(2).split('1').length - 1;
// How many values are live in A and in B, of the 15 registers that each has for them.
const liveCounts = set => [ones(set[0] & 0x7fff), ones(set[0] >>> 16 & 0x7fff)];

// The steps, and the steps and entries of each label, by the text that `nova run --profile` prints.
function readProfile(text) {
  const profile = { steps: 0, labels: new Map() };
  for (const line of text.split('\n')) {
    const total = /^([0-9]+) steps?/.exec(line), row = /^ *([0-9]+) +([0-9]+)  L([0-9]+)$/.exec(line);
    if (total) profile.steps = Number(total[1]);
    if (row) profile.labels.set(Number(row[3]), { steps: Number(row[1]), entries: Number(row[2]) });
  }
  return profile;
}

// The entries and steps of each label in a run.
function labelCounts(listing, counts) {
  return listing.labels.map((label, n) => {
    const end = n + 1 < listing.labels.length ? listing.labels[n + 1].start : counts.length;
    let steps = 0;
    for (let at = label.start; at < end; at += 1) steps += counts[at];
    return { number: label.number, entries: counts[label.start], steps };
  });
}

// What differs between a replay and the run that it is of; nothing where they agree in the outcome and in each count.
function disagreement(listing, ran, outcome, profile) {
  if (outcomeText(ran) !== outcome.replace(/^exception .*\n/m, '')) return 'its outcome is another';
  if (ran.steps !== profile.steps) return 'it takes ' + several(ran.steps, 'step');
  for (const label of labelCounts(listing, ran.counts)) {
    const told = profile.labels.get(label.number) || { steps: 0, entries: 0 };
    if (label.entries !== told.entries || label.entries > 0 && label.steps !== told.steps) return 'L' + label.number + ' has other counts';
  }
  return '';
}
