/* Bytes that LZMA has packed, as its specification says (Pavlov; 3 bits of the byte before a
   literal, 2 of a position): a module has much that stands twice far apart, where `gzip` finds it
   no more. */

const TOP = 0x1000000, HALF = 1024, ONE = 2048, SHIFT = 5;

const chances = (count) => new Uint16Array(count).fill(HALF);

/* Bits, each by its chance, from bytes. */
class Bits {
  constructor(bytes) {
    Object.assign(this, { bytes, at: 5, range: 0xffffffff });
    this.code = new DataView(bytes.buffer, bytes.byteOffset).getUint32(1);
  }

  fill() {
    if (this.range >= TOP) return;
    this.range = (this.range << 8) >>> 0;
    this.code = ((this.code << 8) | this.bytes[this.at++]) >>> 0;
  }

  bit(table, index) {
    const chance = table[index], bound = (this.range >>> 11) * chance, bit = this.code >= bound;
    if (bit) {
      this.range -= bound;
      this.code -= bound;
      table[index] -= chance >> SHIFT;
    } else {
      this.range = bound;
      table[index] += (ONE - chance) >> SHIFT;
    }
    this.fill();
    return Number(bit);
  }

  /* So many bits that have no chance of their own. */
  plain(count) {
    let number = 0;
    for (let left = count; left > 0; left -= 1) {
      this.range >>>= 1;
      const bit = this.code >= this.range;
      if (bit) this.code -= this.range;
      number = number * 2 + Number(bit);
      this.fill();
    }
    return number;
  }

  /* A number of so many bits, the highest first. */
  tree(table, from, count) {
    let node = 1;
    for (let left = count; left > 0; left -= 1) node = node * 2 + this.bit(table, from + node);
    return node - (1 << count);
  }

  /* A number of so many bits, the lowest first. */
  turned(table, from, count) {
    let node = 1, number = 0;
    for (let place = 0; place < count; place += 1) {
      const bit = this.bit(table, from + node);
      node = node * 2 + bit;
      number |= bit << place;
    }
    return number;
  }
}

/* How long matches are, less 2. */
class Lengths {
  constructor() {
    Object.assign(this, { choices: chances(2), low: chances(32), middle: chances(32),
      high: chances(256) });
  }

  next(bits, place) {
    if (!bits.bit(this.choices, 0)) return bits.tree(this.low, place * 8, 3);
    if (!bits.bit(this.choices, 1)) return 8 + bits.tree(this.middle, place * 8, 3);
    return 16 + bits.tree(this.high, 0, 8);
  }
}

/* What is unpacked so far, and the chances of all that may come. */
class Unpacking {
  constructor(bytes, size) {
    Object.assign(this, { bits: new Bits(bytes), out: new Uint8Array(size), at: 0, state: 0,
      back: [0, 0, 0, 0], lengths: new Lengths(), again: new Lengths(), literals: chances(0x1800),
      matches: chances(192), repeats: chances(12), others: [chances(12), chances(12), chances(12)],
      singles: chances(192), slots: chances(256), far: chances(115), ends: chances(16) });
  }

  literal() {
    const { bits, out, at, literals } = this, from = 0x300 * (at ? out[at - 1] >> 5 : 0);
    let symbol = 1, match = this.state >= 7 ? 0x100 | out[at - this.back[0] - 1] : 0;
    while (match && symbol < 0x100) {
      const wanted = (match >> 7) & 1;
      match = 0x100 | (match << 1);
      const bit = bits.bit(literals, from + ((1 + wanted) << 8) + symbol);
      symbol = symbol * 2 + bit;
      if (wanted !== bit) match = 0;
    }
    while (symbol < 0x100) symbol = symbol * 2 + bits.bit(literals, from + symbol);
    this.state -= this.state < 4 ? this.state : this.state < 10 ? 3 : 6;
    out[this.at++] = symbol & 0xff;
  }

  copy(length) {
    const { out } = this, from = this.back[0] + 1, end = Math.min(this.at + length, out.length);
    for (; this.at < end; this.at += 1) out[this.at] = out[this.at - from];
  }

  distance(length) {
    const { bits } = this, slot = bits.tree(this.slots, Math.min(length, 3) * 64, 6);
    if (slot < 4) return slot;
    const count = (slot >> 1) - 1, start = (2 | (slot & 1)) * 2 ** count;
    if (slot < 14) return start + bits.turned(this.far, start - slot, count);
    return start + bits.plain(count - 4) * 16 + bits.turned(this.ends, 0, 4);
  }

  match(place) {
    const length = this.lengths.next(this.bits, place);
    this.state = this.state < 7 ? 7 : 10;
    this.back = [this.distance(length), ...this.back.slice(0, 3)];
    this.copy(length + 2);
  }

  repeat(place) {
    const { bits, state, others } = this;
    const which = others.findIndex((table) => !bits.bit(table, state));
    if (which === 0 && !bits.bit(this.singles, state * 16 + place)) {
      this.state = state < 7 ? 9 : 11;
      return this.copy(1);
    }
    const [taken] = this.back.splice(which < 0 ? 3 : which, 1);
    this.back.unshift(taken);
    const length = this.again.next(bits, place);
    this.state = state < 7 ? 8 : 11;
    return this.copy(length + 2);
  }

  all() {
    const { bits, out } = this;
    while (this.at < out.length) {
      const place = this.at & 3;
      if (!bits.bit(this.matches, this.state * 16 + place)) this.literal();
      else if (bits.bit(this.repeats, this.state)) this.repeat(place);
      else this.match(place);
    }
    return out;
  }
}

/* So many bytes, of what LZMA made of them. */
const unpacked = (bytes, size) => new Unpacking(bytes, size).all();
