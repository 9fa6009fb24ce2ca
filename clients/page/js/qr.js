// A QR code of a short text: bytes, versions 1 to 10, error correction M, as ISO/IEC 18004 has them. `modules` gives a square of true and
// false; the mask is the one of least penalty by the standard's four rules.

// of each version: how many bytes of correction a block has, and the blocks' numbers of data bytes
const BLOCKS = [[10, 16], [16, 28], [26, 44], [18, 32, 32], [24, 43, 43], [16, 27, 27, 27, 27], [18, 31, 31, 31, 31], [22, 38, 38, 39, 39], [22, 36, 36, 36, 37, 37], [26, 43, 43, 43, 43, 44]];
const CENTRES = [[], [6, 18], [6, 22], [6, 26], [6, 30], [6, 34], [6, 22, 38], [6, 24, 42], [6, 26, 46], [6, 28, 50]];
const MASKS = [(r, c) => (r + c) % 2, (r) => r % 2, (r, c) => c % 3, (r, c) => (r + c) % 3, (r, c) => ((r >> 1) + Math.floor(c / 3)) % 2, (r, c) => ((r * c) % 2) + ((r * c) % 3), (r, c) => (((r * c) % 2) + ((r * c) % 3)) % 2, (r, c) => (((r + c) % 2) + ((r * c) % 3)) % 2];

// the field of 256 elements by x^8 + x^4 + x^3 + x^2 + 1
const POWERS = [], LOGS = [];
for (let at = 0, power = 1; at < 255; at += 1, power = (power << 1) ^ (power > 127 ? 0x11d : 0)) [POWERS[at], LOGS[power]] = [power, at];
const times = (one, two) => (one && two ? POWERS[(LOGS[one] + LOGS[two]) % 255] : 0);

/** The bytes of correction of a block. */
function correction(data, count) {
  let generator = [1];
  for (let at = 0; at < count; at += 1) generator = [...generator, 0].map((each, place) => each ^ (place ? times(generator[place - 1], POWERS[at]) : 0));
  const rest = [...data, ...new Array(count).fill(0)];
  for (let at = 0; at < data.length; at += 1) {
    const lead = rest[at];
    generator.forEach((each, place) => (rest[at + place] ^= times(each, lead)));
  }
  return rest.slice(data.length);
}

/** All bytes in the order in which they stand in the square. */
function codewords(bytes, version) {
  const [count, ...sizes] = BLOCKS[version - 1], room = sizes.reduce((all, one) => all + one, 0);
  const bits = [0, 1, 0, 0], write = (value, length) => { for (let at = length - 1; at >= 0; at -= 1) bits.push((value >> at) & 1); };
  write(bytes.length, version < 10 ? 8 : 16);
  for (const byte of bytes) write(byte, 8);
  write(0, Math.min(4, 8 * room - bits.length));
  while (bits.length % 8) bits.push(0);
  const data = [];
  for (let at = 0; at < bits.length; at += 8) data.push(Number.parseInt(bits.slice(at, at + 8).join(""), 2));
  for (let pad = 0xec; data.length < room; pad ^= 0xec ^ 0x11) data.push(pad);
  let at = 0;
  const blocks = sizes.map((size) => data.slice(at, (at += size))), behind = blocks.map((block) => correction(block, count)), found = [];
  for (let place = 0; place < Math.max(...sizes); place += 1) for (const block of blocks) if (place < block.length) found.push(block[place]);
  for (let place = 0; place < count; place += 1) for (const block of behind) found.push(block[place]);
  return found;
}

/** The remainder of a number's division by a polynomial, behind the number. */
function withCheck(value, polynomial, length) {
  let rest = value << length;
  const degree = (number) => 31 - Math.clz32(number);
  while (rest && degree(rest) >= length) rest ^= polynomial << (degree(rest) - length);
  return (value << length) | rest;
}

/** The square of a text. */
export function modules(text) {
  const bytes = [...new TextEncoder().encode(text)];
  const version = BLOCKS.findIndex(([, ...sizes], at) => bytes.length + (at < 9 ? 2 : 3) <= sizes.reduce((all, one) => all + one, 0)) + 1;
  if (!version) throw new Error("the text is too long for a QR code");
  const size = 17 + 4 * version, cells = Array.from({ length: size }, () => new Array(size).fill(null));
  const put = (row, column, is) => { if (row >= 0 && column >= 0 && row < size && column < size) cells[row][column] = Boolean(is); };
  const rings = (row, column, reach, dark) => { for (let r = -reach; r <= reach; r += 1) for (let c = -reach; c <= reach; c += 1) put(row + r, column + c, dark(Math.max(Math.abs(r), Math.abs(c)))); };
  for (const [row, column] of [[3, 3], [3, size - 4], [size - 4, 3]]) rings(row, column, 4, (ring) => ring !== 2 && ring !== 4);
  for (const row of CENTRES[version - 1]) for (const column of CENTRES[version - 1]) if (cells[row][column] === null || row === 6 || column === 6) if (!(row < 9 && column < 9) && !(row < 9 && column > size - 10) && !(row > size - 10 && column < 9)) rings(row, column, 2, (ring) => ring !== 1);
  for (let at = 8; at < size - 8; at += 1) {
    put(6, at, at % 2 === 0);
    put(at, 6, at % 2 === 0);
  }
  const format = (mask) => {
    const word = withCheck(mask, 0x537, 10) ^ 0x5412; // level M is 00
    for (let at = 0; at < 15; at += 1) {
      const is = (word >> at) & 1;
      put(at < 6 ? at : at < 8 ? at + 1 : size - 15 + at, 8, is);
      put(8, at < 8 ? size - 1 - at : at < 9 ? 7 : 14 - at, is);
    }
    put(size - 8, 8, true);
  };
  format(0);
  if (version > 6) {
    const word = withCheck(version, 0x1f25, 12);
    for (let at = 0; at < 18; at += 1) for (const [row, column] of [[Math.floor(at / 3), size - 11 + (at % 3)], [size - 11 + (at % 3), Math.floor(at / 3)]]) put(row, column, (word >> at) & 1);
  }
  const places = [];
  for (let right = size - 1, up = true; right > 0; right -= 2, up = !up) {
    if (right === 6) right -= 1;
    for (let step = 0; step < size; step += 1) for (const column of [right, right - 1]) {
      const row = up ? size - 1 - step : step;
      if (cells[row][column] === null) places.push([row, column]);
    }
  }
  const words = codewords(bytes, version), bit = (at) => (at >> 3 < words.length ? (words[at >> 3] >> (7 - (at & 7))) & 1 : 0);
  const masked = MASKS.map((mask, number) => {
    places.forEach(([row, column], at) => put(row, column, bit(at) ^ (mask(row, column) === 0 ? 1 : 0)));
    format(number);
    return cells.map((row) => [...row]);
  });
  return masked.reduce((best, one) => (penalty(one) < penalty(best) ? one : best));
}

/** How hard a square is to read: runs, blocks, what looks like a finder, and dark against light. */
function penalty(cells) {
  const size = cells.length, lines = [...cells, ...cells.map((_, at) => cells.map((row) => row[at]))].map((line) => line.map(Number).join(""));
  let found = 0, dark = 0;
  for (const line of lines) {
    for (const run of line.match(/0{5,}|1{5,}/g) ?? []) found += run.length - 2;
    for (const pattern of [/(?=10111010000)/g, /(?=00001011101)/g]) found += 40 * (line.match(pattern) ?? []).length;
  }
  for (let row = 0; row < size; row += 1) for (let column = 0; column < size; column += 1) {
    dark += cells[row][column] ? 1 : 0;
    if (row && column && [cells[row - 1][column], cells[row][column - 1], cells[row - 1][column - 1]].every((one) => one === cells[row][column])) found += 3;
  }
  return found + 10 * Math.floor(Math.abs((100 * dark) / size ** 2 - 50) / 5);
}
