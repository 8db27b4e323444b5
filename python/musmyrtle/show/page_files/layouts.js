"use strict";

/**
 * The signals of frames, read from payloads. Raw values are whole numbers of any size, and physical ones fractions, so
 * that no value is rounded before it is shown.
 * @typedef {{top: bigint, bottom: bigint}} Fraction its bottom is above 0
 * @typedef {{raw: (bigint|number|string), fraction: ?Fraction, isInvalid: boolean, name: ?string, isNew: boolean,
 *            isInRange: boolean}} Read a raw number is that of a float, and a raw text the bytes as `x0a0b`
 */

/** The bits of the exponent and of the significand of a float, by its bits. */
const FLOAT_PARTS = {16: [5n, 10n], 32: [8n, 23n], 64: [11n, 52n]};
/** The bits of a number's significand, and the exponent of the least and above the greatest place of a number. */
const SIGNIFICAND = 53;
const LEAST_PLACE = -1074;
const MOST_PLACE = 971;
/** The decimals up to which a number is shown as a decimal. */
const MOST_DECIMALS = 40;

// ---- exact numbers

/** Returns the fraction of its two parts as texts. */
function fractionOf([top, bottom]) {
  return {top: BigInt(top), bottom: BigInt(bottom)};
}

/** Returns the product of two fractions. */
function product(one, other) {
  return {top: one.top * other.top, bottom: one.bottom * other.bottom};
}

/** Returns the sum of two fractions. */
function sum(one, other) {
  return {top: one.top * other.bottom + other.top * one.bottom, bottom: one.bottom * other.bottom};
}

/** Returns a negative number, 0 or a positive one, as the first fraction is below, equal to or above the other one. */
function compared(one, other) {
  const left = one.top * other.bottom;
  const right = other.top * one.bottom;
  return left < right ? -1 : left > right ? 1 : 0;
}

/** Returns the number of bits of a whole number above 0. */
function lengthOf(number) {
  return number.toString(2).length;
}

/** Returns the fraction with the least numbers. */
function reduced({top, bottom}) {
  let [one, other] = [top < 0n ? -top : top, bottom];
  while (other) {
    [one, other] = [other, one % other];
  }
  return {top: top / one, bottom: bottom / one};
}

/** Returns the number that is nearest to a fraction, of two the even one. */
function nearestNumber({top, bottom}) {
  const size = top < 0n ? -top : top;
  if (!size) {
    return 0;
  }
  const about = lengthOf(size) - lengthOf(bottom) - SIGNIFICAND;
  const place = Math.max(LEAST_PLACE, about);
  const [over, under] = place < 0 ? [size << BigInt(-place), bottom] : [size, bottom << BigInt(place)];
  let whole = over / under;
  const rest = 2n * (over % under);
  // A whole number of 54 bits is rounded by `Number`, which needs to know of a rest.
  if (lengthOf(whole || 1n) > SIGNIFICAND) {
    whole = 2n * whole + (rest ? 1n : 0n);
    return signed(top, Number(whole) / 2, place);
  }
  if (rest > under || rest === under && whole & 1n) {
    whole += 1n;
  }
  return signed(top, Number(whole), place);
}

/** Returns a number times 2 to a place, with the sign of a whole number. */
function signed(top, number, place) {
  const found = place > MOST_PLACE ? Infinity : number * 2 ** place;
  return top < 0n ? -found : found;
}

/** Returns a fraction as a decimal with all its digits, or as `1/3` where it has no end or too many digits. */
function exactText(fraction) {
  const {top, bottom} = reduced(fraction);
  let [rest, twos, fives] = [bottom, 0, 0];
  for (; rest % 2n === 0n; twos += 1) {
    rest /= 2n;
  }
  for (; rest % 5n === 0n; fives += 1) {
    rest /= 5n;
  }
  const decimals = Math.max(twos, fives);
  if (rest !== 1n || decimals > MOST_DECIMALS) {
    return `${top}/${bottom}`;
  }
  const digits = String((top < 0n ? -top : top) * 10n ** BigInt(decimals) / bottom).padStart(decimals + 1, "0");
  const at = digits.length - decimals;
  return `${top < 0n ? "-" : ""}${digits.slice(0, at)}${decimals ? `.${digits.slice(at)}` : ""}`;
}

// ---- signals

/** Returns the number of a float's code, and its exact value, which an infinite number doesn't have. */
function floatOf(code, bits) {
  const [exponents, significands] = FLOAT_PARTS[bits];
  const sign = code >> BigInt(bits - 1) ? -1 : 1;
  const exponent = code >> significands & (1n << exponents) - 1n;
  const rest = code & (1n << significands) - 1n;
  if (exponent === (1n << exponents) - 1n) {
    return {raw: rest ? NaN : sign * Infinity, fraction: null};
  }
  const whole = BigInt(sign) * (exponent ? rest + (1n << significands) : rest);
  const place = (exponent || 1n) - (1n << exponents - 1n) + 1n - significands;
  const fraction = place < 0n ? {top: whole, bottom: 1n << -place} : {top: whole << place, bottom: 1n};
  return {raw: whole ? nearestNumber(fraction) : sign * 0, fraction};
}

/** A signal of a frame, as the header of the page describes it. */
class Signal {
  /** @param {object} data */
  constructor(data) {
    Object.assign(this, data);
    this.isBig = data.order === "big";
    this.begin = this.isBig ? 8 * (data.bit >> 3) + 7 - data.bit % 8 : data.bit;
    this.end = this.begin + data.bits;
    [this.factor, this.offset] = [data.factor, data.offset].map(fractionOf);
    [this.least, this.most] = [data.least, data.most].map((it) => (it === null ? null : fractionOf(it)));
    this.names = data.values.map(([first, last, name]) => ({first: BigInt(first), last: BigInt(last), name}));
    this.when = data.when.map(([name, code]) => ({name, code: BigInt(code)}));
    this.invalid = data.invalid === null || data.coding === "bytes" ? data.invalid
      : data.coding === "float" ? Number(data.invalid) : BigInt(data.invalid);
  }

  /** Returns whether a payload is long enough. */
  isIn(payload) {
    return this.end <= 8 * payload.length;
  }

  /** Returns its bits in a payload that is long enough, as a whole number. */
  codeIn(payload) {
    const [first, last] = [this.begin >> 3, this.end - 1 >> 3];
    let whole = 0n;
    for (let place = first; place <= last; place += 1) {
      const byte = BigInt(payload[place]);
      whole = this.isBig ? whole << 8n | byte : whole | byte << BigInt(8 * (place - first));
    }
    const below = this.isBig ? 8 * (last + 1) - this.end : this.begin - 8 * first;
    return whole >> BigInt(below) & (1n << BigInt(this.bits)) - 1n;
  }

  /** Returns the raw value in a payload that is long enough, and the exact number that it is. */
  rawIn(payload) {
    if (this.coding === "bytes") {
      return {raw: hexOf(payload.subarray(this.bit >> 3, (this.bit >> 3) + (this.bits >> 3))), fraction: null};
    }
    const code = this.codeIn(payload);
    if (this.coding === "float") {
      return floatOf(code, this.bits);
    }
    const isNegative = this.coding === "signed" && code >> BigInt(this.bits - 1);
    const raw = isNegative ? code - (1n << BigInt(this.bits)) : code;
    return {raw, fraction: {top: raw, bottom: 1n}};
  }

  /** Returns the name of a raw value, or null. */
  nameOf(raw) {
    const found = typeof raw === "bigint" ? this.names.find((it) => it.first <= raw && raw <= it.last) : null;
    return found ? found.name : null;
  }

  /** Returns whether all its update bits are 1, as they are if it has none. */
  isNewIn(payload) {
    return this.update.every((bit) => bit >> 3 < payload.length && payload[bit >> 3] >> bit % 8 & 1);
  }

  /** Returns whether a raw value is the invalid one. */
  isInvalid(raw) {
    return this.invalid !== null && (raw === this.invalid || Number.isNaN(raw) && Number.isNaN(this.invalid));
  }

  /** Returns the signal in a payload that is long enough. */
  readIn(payload) {
    const {raw, fraction: exact} = this.rawIn(payload);
    const isInvalid = this.isInvalid(raw);
    const fraction = exact && sum(product(exact, this.factor), this.offset);
    const name = this.nameOf(raw);
    const isFree = isInvalid || name !== null || this.coding === "bytes";
    return {raw, fraction, isInvalid, name, isNew: this.isNewIn(payload), isInRange: isFree || this.isWithin(fraction)};
  }

  /** Returns whether the limits allow a physical value, which is null for an infinite one. */
  isWithin(fraction) {
    if (!fraction) {
      return this.least === null && this.most === null;
    }
    return (this.least === null || compared(fraction, this.least) >= 0)
      && (this.most === null || compared(fraction, this.most) <= 0);
  }
}

/** The signals of a frame. */
class Layout {
  /** @param {{name: string, bytes: number, signals: object[]}} data */
  constructor({name, bytes, signals}) {
    this.name = name;
    this.bytes = bytes;
    this.signals = signals.map((it) => new Signal(it));
    this.byName = new Map(this.signals.map((it) => [it.name, it]));
  }

  /** Returns a signal of a payload, or null if the payload hasn't it. All its bits are within the frame. */
  read(signal, payload) {
    const isThere = signal.isIn(payload) && signal.when.every(({name, code}) => {
      const selector = this.byName.get(name);
      return selector.isIn(payload) && selector.rawIn(payload).raw === code;
    });
    return isThere ? signal.readIn(payload) : null;
  }
}

/** Returns bytes as `x0a0b`. */
function hexOf(bytes) {
  return `x${Array.from(bytes, (it) => it.toString(16).padStart(2, "0")).join("")}`;
}

/** Returns the number of a signal for a plot, or null where it has none. */
function numberOf(read) {
  if (read.isInvalid || typeof read.raw === "string") {
    return null;
  }
  const number = read.fraction ? nearestNumber(read.fraction) : read.raw;
  return Number.isFinite(number) ? number : null;
}

/** Returns the exact value of a signal as a text, with its name, its unit and what is strange about it. */
function valueText(signal, read) {
  if (read === null) {
    return "not in the payload";
  }
  if (read.isInvalid) {
    return `none (raw ${read.raw})`;
  }
  const number = read.fraction ? exactText(read.fraction) : String(read.raw);
  const unit = signal.unit ? ` ${signal.unit}` : "";
  const text = read.name === null ? number + unit : `${read.name} (${number}${unit})`;
  return text + (read.isInRange ? "" : ", out of range") + (read.isNew ? "" : ", update bit 0");
}
