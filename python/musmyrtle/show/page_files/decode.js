"use strict";

/** The types of columns in packed data, by name. */
const TYPES = {u8: Uint8Array, u16: Uint16Array, u32: Uint32Array};

/**
 * Returns the bytes of a compressed text in base 64.
 * @param {string} text
 * @returns {Promise<Uint8Array>}
 */
async function inflated(text) {
  const signs = atob(text.trim());
  const bytes = new Uint8Array(signs.length);
  for (let place = 0; place < signs.length; place += 1) {
    bytes[place] = signs.charCodeAt(place);
  }
  const stream = new Blob([bytes]).stream().pipeThrough(new DecompressionStream("deflate"));
  return new Uint8Array(await new Response(stream).arrayBuffer());
}

/**
 * Replaces differences by the numbers themselves.
 * @param {Uint32Array} numbers
 */
function sumUp(numbers) {
  for (let place = 1; place < numbers.length; place += 1) {
    numbers[place] += numbers[place - 1];
  }
}

/**
 * Returns the header, the columns and their words of packed data.
 * @param {Uint8Array} bytes begins at a multiple of four in its buffer
 * @returns {{header: object, columns: Object<string, ArrayLike<number>>, words: Object<string, string[]>}}
 */
function unpacked(bytes) {
  const view = new DataView(bytes.buffer, bytes.byteOffset, bytes.byteLength);
  const size = view.getUint32(0, true);
  const header = JSON.parse(new TextDecoder().decode(bytes.subarray(4, 4 + size)));
  const columns = {};
  const words = {};
  let at = 4 + size;
  for (const it of header.columns) {
    const Type = TYPES[it.type];
    const column = new Type(bytes.buffer, bytes.byteOffset + at, it.count);
    at += 4 * Math.ceil(column.byteLength / 4);
    if (it.is_rising) {
      sumUp(column);
    }
    columns[it.name] = column;
    words[it.name] = it.words;
  }
  return {header, columns, words};
}

/**
 * Returns where each entry begins, and the end of the last one.
 * @param {ArrayLike<number>} sizes
 * @returns {Uint32Array}
 */
function beginnings(sizes) {
  const found = new Uint32Array(sizes.length + 1);
  for (let place = 0; place < sizes.length; place += 1) {
    found[place + 1] = found[place] + sizes[place];
  }
  return found;
}

/**
 * Returns the number of entries below a limit, in ascending numbers.
 * @param {ArrayLike<number>} numbers
 * @param {number} limit
 * @returns {number}
 */
function below(numbers, limit) {
  let low = 0;
  let high = numbers.length;
  while (low < high) {
    const middle = (low + high) >> 1;
    if (numbers[middle] < limit) {
      low = middle + 1;
    } else {
      high = middle;
    }
  }
  return low;
}
