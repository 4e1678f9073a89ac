// The headers that packets are known to have, their checksums, and the layouts of the source as fields of any place.

const PROTOCOLS = { 1: 'ICMP', 2: 'IGMP', 4: 'IPv4', 6: 'TCP', 17: 'UDP', 41: 'IPv6', 47: 'GRE', 50: 'ESP', 51: 'AH', 58: 'ICMPv6', 89: 'OSPF', 132: 'SCTP' };
const TYPES = { 0x0800: 'IPv4', 0x0806: 'ARP', 0x8100: 'VLAN', 0x86dd: 'IPv6', 0x8847: 'MPLS', 0x88a8: 'VLAN' };
const CONTROL = ['FIN', 'SYN', 'RST', 'PSH', 'ACK', 'URG', 'ECE', 'CWR'];

const bitsOf = (bytes, bit, size) => {
  let value = 0;
  for (let n = bit; n < bit + size; n += 1) value = 2 * value + (bytes[n >> 3] >> (7 - (n & 7)) & 1);
  return value;
};
const named = names => value => value + (names[value] ? ' ' + names[value] : '');
const shown = {
  plain: value => String(value),
  hex: (value, bits) => '0x' + value.toString(16).padStart(Math.ceil(bits / 4), '0'),
  bytes: value => several(value * 4, 'byte'),
  protocol: named(PROTOCOLS),
  type: value => shown.hex(value, 16) + (TYPES[value] ? ' ' + TYPES[value] : ''),
  fragment: value => (value & 2 ? "don't fragment" : value & 1 ? 'more fragments' : 'none'),
  control: value => CONTROL.filter((_, n) => value >> n & 1).join(' ') || 'none',
  operation: named({ 1: 'request', 2: 'reply' }),
  ping: named({ 0: 'echo reply', 3: 'unreachable', 5: 'redirect', 8: 'echo request', 11: 'time exceeded' }),
  ping6: named({ 1: 'unreachable', 2: 'too big', 3: 'time exceeded', 128: 'echo request', 129: 'echo reply', 135: 'solicitation', 136: 'advertisement' }),
  address: (_, __, bytes) => bytes.join('.'),
  station: (_, __, bytes) => bytes.map(byte => hex(byte, 2)).join(':'),
  address6: (_, __, bytes) => {
    const parts = Array.from({ length: 8 }, (_, n) => (bytes[2 * n] * 256 + bytes[2 * n + 1]).toString(16));
    return parts.join(':').replace(/(?:^|:)0(?::0)+(?::|$)/, '::');
  },
};

// Each header: the names of its fields, how many bits each has, and how it is shown.
const HEADERS = {
  Ethernet: [['destination', 48, 'station'], ['source', 48, 'station'], ['type', 16, 'type']],
  VLAN: [['priority', 3], ['drop eligible', 1], ['VLAN', 12], ['type', 16, 'type']],
  MPLS: [['label', 20], ['traffic class', 3], ['bottom of stack', 1], ['time to live', 8]],
  IPv4: [['version', 4], ['header length', 4, 'bytes'], ['DSCP', 6], ['ECN', 2], ['total length', 16], ['identification', 16, 'hex'], ['flags', 3, 'fragment'],
    ['fragment offset', 13], ['time to live', 8], ['protocol', 8, 'protocol'], ['header checksum', 16, 'hex'], ['source', 32, 'address'], ['destination', 32, 'address']],
  IPv6: [['version', 4], ['traffic class', 8], ['flow label', 20, 'hex'], ['payload length', 16], ['next header', 8, 'protocol'], ['hop limit', 8], ['source', 128, 'address6'], ['destination', 128, 'address6']],
  ARP: [['hardware', 16], ['protocol', 16, 'type'], ['hardware length', 8], ['protocol length', 8], ['operation', 16, 'operation'], ['sender', 48, 'station'],
    ['sender address', 32, 'address'], ['target', 48, 'station'], ['target address', 32, 'address']],
  TCP: [['source port', 16], ['destination port', 16], ['sequence number', 32, 'hex'], ['acknowledgment number', 32, 'hex'], ['header length', 4, 'bytes'], ['reserved', 4], ['flags', 8, 'control'],
    ['window', 16], ['checksum', 16, 'hex'], ['urgent pointer', 16]],
  UDP: [['source port', 16], ['destination port', 16], ['length', 16], ['checksum', 16, 'hex']],
  ICMP: [['type', 8, 'ping'], ['code', 8], ['checksum', 16, 'hex'], ['identifier', 16], ['sequence number', 16]],
  ICMPv6: [['type', 8, 'ping6'], ['code', 8], ['checksum', 16, 'hex'], ['identifier', 16], ['sequence number', 16]],
  GRE: [['checksum present', 1], ['reserved', 1], ['key present', 1], ['sequence present', 1], ['reserved', 9], ['version', 3], ['type', 16, 'type']],
};
const sizeOf = header => HEADERS[header].reduce((sum, field) => sum + field[1], 0) / 8;

// The sum of the Internet's checksum over bytes, which is ffff where a checksum inside them is right.
function checkSum(bytes) {
  let sum = 0;
  for (let n = 0; n < bytes.length; n += 2) sum += bytes[n] * 256 + (n + 1 < bytes.length ? bytes[n + 1] : 0);
  while (sum > 0xffff) sum = (sum & 0xffff) + (sum >>> 16);
  return sum;
}

// The fields of a header, each with its first bit in the memory.
function fieldsAt(bytes, header, at) {
  let bit = 8 * at;
  return HEADERS[header].map(([name, size, how]) => {
    const value = size > 48 ? 0 : bitsOf(bytes, bit, size);
    const text = shown[how || 'plain'](value, size, bytes.slice(bit >> 3, (bit + size) >> 3));
    const field = { name, bit, size, text, value };
    bit += size;
    return field;
  });
}

// Reads headers one inside the other from a place on, and puts each into the list.
class Reader {
  constructor(bytes) {
    this.bytes = bytes;
    this.groups = [];
  }

  push(header, at) {
    if (at + sizeOf(header) > this.bytes.length || this.groups.length >= 24) return null;
    const group = { title: header, at, size: sizeOf(header), fields: fieldsAt(this.bytes, header, at) };
    this.groups.push(group);
    return name => group.fields.find(field => field.name === name);
  }

  rest(title, at, end) {
    const bytes = this.bytes.slice(at, Math.min(end, this.bytes.length));
    if (bytes.length === 0) return;
    const text = bytes.slice(0, 48).map(byte => (byte > 31 && byte < 127 ? String.fromCharCode(byte) : '.')).join('') + (bytes.length > 48 ? ' ..' : '');
    this.groups[this.groups.length - 1].fields.push({ name: title, bit: 8 * at, size: 8 * bytes.length, text, value: 0 });
  }

  check(field, bytes) {
    field.isRight = checkSum(bytes) === 0xffff;
  }

  byType(type, at) {
    if (type === 0x0800) this.ipv4(at);
    else if (type === 0x86dd) this.ipv6(at);
    else if (type === 0x0806) this.push('ARP', at);
    else if (type === 0x8100 || type === 0x88a8) this.tagged('VLAN', at);
    else if (type === 0x8847) this.mpls(at);
    else if (this.groups.length > 0) this.rest('payload', at, this.bytes.length);
  }

  tagged(header, at) {
    const of = this.push(header, at);
    if (of) this.byType(of('type').value, at + sizeOf(header));
  }

  mpls(at) {
    const of = this.push('MPLS', at);
    if (!of) return;
    if (of('bottom of stack').value === 0) this.mpls(at + 4);
    else if (this.bytes[at + 4] >> 4 === 4) this.ipv4(at + 4);
    else if (this.bytes[at + 4] >> 4 === 6) this.ipv6(at + 4);
  }

  ipv4(at) {
    const of = this.push('IPv4', at);
    if (!of) return;
    const length = 4 * of('header length').value, end = Math.min(at + of('total length').value, this.bytes.length);
    if (length > 20) this.rest('options', at + 20, at + length);
    this.check(of('header checksum'), this.bytes.slice(at, at + length));
    const isPart = of('fragment offset').value > 0 || (of('flags').value & 1) === 1 || end < at + of('total length').value;
    const addresses = this.bytes.slice(at + 12, at + 20);
    this.transport(of('protocol').value, at + length, end, addresses, isPart);
  }

  ipv6(at) {
    const of = this.push('IPv6', at);
    if (!of) return;
    const full = at + 40 + of('payload length').value, end = Math.min(full, this.bytes.length);
    let next = of('next header').value, from = at + 40;
    while ([0, 43, 60].includes(next) && from + 8 <= end) {
      const size = 8 + 8 * this.bytes[from + 1];
      next = this.bytes[from];
      this.rest('further header', from, from + size);
      from += size;
    }
    this.transport(next, from, end, this.bytes.slice(at + 8, at + 40), end < full);
  }

  transport(protocol, at, end, addresses, isPart) {
    const size = end - at, low = [size >> 8 & 255, size & 255];
    const front = addresses.length === 8 ? [...addresses, 0, protocol, ...low] : [...addresses, 0, 0, ...low, 0, 0, 0, protocol];
    const covered = isPlain => (isPlain ? [] : front).concat(this.bytes.slice(at, end));
    const name = PROTOCOLS[protocol];
    if (protocol === 4) return this.ipv4(at);
    if (protocol === 41) return this.ipv6(at);
    if (protocol === 47) return this.gre(at);
    if (!HEADERS[name] || size < sizeOf(name) || name === 'Ethernet') return this.rest('payload', at, end);
    const of = this.push(name, at);
    if (!of) return undefined;
    const checksum = of('checksum'), isAbsent = name === 'UDP' && checksum.value === 0;
    if (isAbsent) checksum.text += ' none';
    else if (!isPart) this.check(checksum, covered(name === 'ICMP'));
    const length = name === 'TCP' ? 4 * of('header length').value : sizeOf(name);
    if (length > sizeOf(name)) this.rest('options', at + sizeOf(name), at + length);
    return this.rest('payload', at + length, end);
  }

  gre(at) {
    const of = this.push('GRE', at);
    if (!of) return;
    let from = at + 4;
    for (const [flag, title] of [['checksum present', 'checksum'], ['key present', 'key'], ['sequence present', 'sequence number']]) {
      if (of(flag).value === 1) {
        this.groups[this.groups.length - 1].fields.push({ name: title, bit: 8 * from, size: 32, text: shown.hex(bitsOf(this.bytes, 8 * from, 32), 32), value: 0 });
        from += 4;
      }
    }
    this.byType(of('type').value, from);
  }
}

// What begins at a byte, where it is certain enough: an Ethernet frame, or a header of IP or ARP.
function startAt(bytes, at) {
  const half = from => bytes[from] * 256 + bytes[from + 1], left = bytes.length - at;
  const isIpv4 = from => bytes[from] >> 4 === 4 && (bytes[from] & 15) >= 5 && half(from + 2) >= 4 * (bytes[from] & 15)
    && checkSum(bytes.slice(from, from + 4 * (bytes[from] & 15))) === 0xffff;
  const isIpv6 = from => bytes[from] >> 4 === 6 && half(from + 4) > 0 && half(from + 4) <= bytes.length - from - 40
    && (PROTOCOLS[bytes[from + 6]] !== undefined || [0, 43, 44, 59, 60].includes(bytes[from + 6]));
  const isArp = from => half(from) === 1 && half(from + 2) === 0x0800 && half(from + 4) === 0x0604;
  const behind = from => {
    const type = half(from);
    if (type === 0x0800) return isIpv4(from + 2);
    if (type === 0x86dd) return isIpv6(from + 2);
    if (type === 0x0806) return isArp(from + 2);
    if (type === 0x8100 || type === 0x88a8) return behind(from + 4);
    return type === 0x8847;
  };
  if (left >= 20 && isIpv4(at)) return 'IPv4';
  if (left >= 40 && isIpv6(at)) return 'IPv6';
  if (left >= 34 && behind(at + 12)) return 'Ethernet';
  if (left >= 28 && isArp(at)) return 'ARP';
  return '';
}

// The headers in a memory from the first place on where one is known; of a packet that is lost on the way, at the place `like`.
function packetGroups(bytes, like) {
  const reader = new Reader(bytes);
  for (let at = 0; at + 20 <= bytes.length && at < 4096; at += 4) {
    const start = startAt(bytes, at);
    if (start === '') continue;
    if (start === 'Ethernet') reader.tagged('Ethernet', at);
    else if (start === 'IPv4') reader.ipv4(at);
    else if (start === 'IPv6') reader.ipv6(at);
    else reader.push('ARP', at);
    return reader.groups;
  }
  return like ? headersAt(bytes, like.title, like.at) : reader.groups;
}

// A header of this name at a place, and those inside it.
function headersAt(bytes, title, at) {
  const reader = new Reader(bytes);
  if (title === 'Ethernet' || title === 'VLAN') reader.tagged(title, at);
  else if (title === 'IPv4' || title === 'IPv6' || title === 'MPLS' || title === 'GRE') reader[title.toLowerCase()](at);
  else reader.push(title, at);
  return reader.groups;
}

// The layouts that the sizes of a source tell of, each with its fields: where they begin and how many bits they have.
function readLayouts(text) {
  const layouts = [];
  for (const line of text.split('\n')) {
    const head = /^layout `(\w+)`: ([0-9]+) bits?, ([0-9]+) words?/.exec(line);
    if (head) layouts.push({ name: head[1], bits: Number(head[2]), words: Number(head[3]), fields: [] });
    const field = /^ {4}([\w.]+): word ([0-9]+), bit ([0-9]+), ([0-9]+) bits?/.exec(line);
    if (field && layouts.length > 0) layouts[layouts.length - 1].fields.push({ path: field[1], bit: 32 * field[2] + Number(field[3]), size: Number(field[4]) });
  }
  return layouts;
}

// The fields of a layout at a byte, as a tree: a part of a name that several fields have is a line above them.
function layoutGroup(bytes, layout, at) {
  const group = { title: 'layout ' + layout.name, at, size: 4 * layout.words, fields: [] };
  let above = [];
  for (const field of layout.fields) {
    const parts = field.path.split('.'), name = parts.pop();
    parts.forEach((part, depth) => {
      if (above[depth] !== part) {
        group.fields.push({ name: '\u2007'.repeat(2 * depth) + part, bit: 8 * at + field.bit, size: 0, text: '', value: 0 });
        above = [];
      }
    });
    above = parts;
    const bit = 8 * at + field.bit;
    if (bit + field.size > 8 * bytes.length) break;
    const value = bitsOf(bytes, bit, field.size);
    const first = field.bit & 31, last = first + field.size - 1;
    const where = 'word ' + (field.bit >> 5) + (field.size === 32 && first === 0 ? '' : first === last ? ', bit ' + first : last > 31 ? ', from bit ' + first : ', bits ' + first + ' to ' + last);
    group.fields.push({ name: '\u2007'.repeat(2 * parts.length) + name, where, bit, size: field.size, text: field.size > 3 ? value + ' = ' + shown.hex(value, field.size) : String(value), value });
  }
  return group;
}

// What is wrong with the tables of headers: nothing.
function checkFields() {
  const sizes = { Ethernet: 14, VLAN: 4, MPLS: 4, IPv4: 20, IPv6: 40, ARP: 28, TCP: 20, UDP: 8, ICMP: 8, ICMPv6: 8, GRE: 4 };
  return Object.keys(HEADERS).filter(name => sizeOf(name) !== sizes[name]).map(name => name + ' has ' + sizeOf(name) + ' bytes');
}
