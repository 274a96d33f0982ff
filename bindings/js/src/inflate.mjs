// Raw deflate (RFC 1951): what holds the module is compressed, and browsers have no call that decompresses at once.

const LENGTHS = [3, 4, 5, 6, 7, 8, 9, 10, 11, 13, 15, 17, 19, 23, 27, 31, 35, 43, 51, 59, 67, 83, 99, 115, 131, 163, 195, 227, 258];
const LENGTH_BITS = [0, 0, 0, 0, 0, 0, 0, 0, 1, 1, 1, 1, 2, 2, 2, 2, 3, 3, 3, 3, 4, 4, 4, 4, 5, 5, 5, 5, 0];
const DISTANCES = [1, 2, 3, 4, 5, 7, 9, 13, 17, 25, 33, 49, 65, 97, 129, 193, 257, 385, 513, 769, 1025, 1537, 2049, 3073, 4097, 6145, 8193, 12289, 16385, 24577];
const DISTANCE_BITS = [0, 0, 0, 0, 1, 1, 2, 2, 3, 3, 4, 4, 5, 5, 6, 6, 7, 7, 8, 8, 9, 9, 10, 10, 11, 11, 12, 12, 13, 13];
const ORDER = [16, 17, 18, 0, 8, 7, 9, 6, 10, 5, 11, 4, 12, 3, 13, 2, 14, 1, 15];

// How many symbols have a code of each length, and the symbols in the order of their codes.
function codesOf(lengths) {
  const counts = new Uint16Array(16);
  const symbols = new Uint16Array(lengths.length);
  for (const length of lengths) counts[length] += 1;
  counts[0] = 0;
  const places = new Uint16Array(16);
  for (let length = 1; length < 16; length += 1) places[length] = places[length - 1] + counts[length - 1];
  lengths.forEach((length, symbol) => {
    if (length > 0) symbols[places[length]++] = symbol;
  });
  return { counts, symbols };
}

function readerOf(source) {
  let at = 0;
  let held = 0;
  let count = 0;
  const take = (need) => {
    for (; count < need; count += 8) held |= source[at++] << count;
    const value = held & ((1 << need) - 1);
    held >>>= need;
    count -= need;
    return value;
  };
  const symbolOf = ({ counts, symbols }) => {
    let code = 0;
    let first = 0;
    let index = 0;
    for (let length = 1; ; length += 1) {
      code |= take(1);
      if (code - counts[length] < first) return symbols[index + code - first];
      index += counts[length];
      first = (first + counts[length]) << 1;
      code <<= 1;
    }
  };
  return { take, symbolOf };
}

// The codes of a block, which begin it.
function codesOfBlock({ take, symbolOf }) {
  const count = take(5) + 257;
  const all = count + take(5) + 1;
  const used = take(4) + 4;
  const lengths = new Uint8Array(19);
  for (let next = 0; next < used; next += 1) lengths[ORDER[next]] = take(3);
  const codes = codesOf(lengths);
  const read = new Uint8Array(all);
  for (let size = 0; size < all;) {
    const symbol = symbolOf(codes);
    if (symbol < 16) read[size++] = symbol;
    else {
      const repeats = symbol === 16 ? 3 + take(2) : symbol === 17 ? 3 + take(3) : 11 + take(7);
      const repeated = symbol === 16 ? read[size - 1] : 0;
      read.fill(repeated, size, size + repeats);
      size += repeats;
    }
  }
  return { literals: codesOf(read.subarray(0, count)), distances: codesOf(read.subarray(count)) };
}

// The codes of a block that brings none.
function fixedCodes() {
  const lengths = new Uint8Array(288).fill(8).fill(9, 144, 256).fill(7, 256, 280);
  return { literals: codesOf(lengths), distances: codesOf(new Uint8Array(30).fill(5)) };
}

// So many bytes, each compressed: no block is stored as it is.
export function inflate(source, length) {
  const reader = readerOf(source);
  const { take, symbolOf } = reader;
  const bytes = new Uint8Array(length);
  let size = 0;
  for (let isLast = 0; isLast === 0;) {
    isLast = take(1);
    const kind = take(2);
    if (kind !== 1 && kind !== 2) throw new Error("a block is not compressed");
    const { literals, distances } = kind === 1 ? fixedCodes() : codesOfBlock(reader);
    for (let symbol = symbolOf(literals); symbol !== 256; symbol = symbolOf(literals)) {
      if (symbol < 256) bytes[size++] = symbol;
      else {
        let left = LENGTHS[symbol - 257] + take(LENGTH_BITS[symbol - 257]);
        const place = symbolOf(distances);
        const distance = DISTANCES[place] + take(DISTANCE_BITS[place]);
        for (; left > 0; left -= 1, size += 1) bytes[size] = bytes[size - distance];
      }
    }
  }
  return bytes;
}
