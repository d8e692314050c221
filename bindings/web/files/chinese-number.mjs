// Reads, writes and finds Chinese numerals with the proved library, which is a WebAssembly module.
//
//     toNumber('一百二')                                120
//     toBigInt('一澗')                                  10n ** 36n
//     toChinese(120, { case: 'upper' })               '壹佰贰拾'
//     amountToChinese(yuanToFen('15'))                '壹拾伍元整'
//     chineseToAmount('壹拾伍元整')                     1500
//     signedAmountToChinese(yuanToFen('-1,409.50'))   '负壹仟肆佰零玖元伍角整'
//     chineseToDate('伍年零壹月壹拾伍日')               { year: 5, month: 1, day: 15 }
//     for (const found of findNumbers('第二十三回')) ..  found.number() is 23
//     toQuantity('3.5万').toFigures()                 '35000'
//     Quantity.fraction(1, 3).toChinese()             '三分之一'
//     textToFigures('一月五日下午三点半')             '1月5日下午3点半'
//     for (const it of findPhrases('三到五万元')) ..    it.value is 30000 and 50000, as Quantities
//     inputMessage('壹佰贰元整', 'amount', 'en')        why it is not an amount
//
// A call that returns a Number returns only safe integers, which are exact. Each has a variant that
// returns a BigInt, with `BigInt` in the name instead of `Number`, or at the end. The module
// allocates no memory: this file lends it the memory past its __heap_base.

import { compiled } from './compiled.mjs';

/**
 * The version of this file and of the module.
 * @type {string}
 */
export const VERSION = '0.1.0';

// Each list is in the order of the module's codes for these names.

// Made by bindings/codes.py, from here ..

/**
 * The integer type that a number must fit: of u8 a number is from 0 to 255, of i8 from -128 to
 * 127.
 */
export const KINDS = Object.freeze(/** @type {const} */ ([
  'u8', 'u16', 'u32', 'u64', 'u128', 'i8', 'i16', 'i32', 'i64', 'i128',
]));

/**
 * How a number is read or written: as plain digits, 一二三, or with units, 一百二十三, by one of four
 * methods. 'any' is the one to use. It reads a text as 'digits' if all of it is digits, with or
 * without a sign, otherwise as 'tenThousand'. It can read back what it writes: in simplified
 * script below 10^16 it writes as 'middle', so that 10^12 is 一万亿, and otherwise as
 * 'tenThousand'. 'tenThousand' writes 10^12 as 兆, as in Taiwan; 'middle' and 'high' write it as
 * 萬億, as on the mainland.
 *
 * - 'digits': as plain digits: 一二三 is 123.
 * - 'low': each unit is ten times the one before: 億 is 10^5.
 * - 'tenThousand': after 萬 each unit is 10^4 times the one before: 億 is 10^8, 兆 is 10^12.
 * - 'middle': after 億 each unit is 10^8 times the one before: 兆 is 10^16, 京 is 10^24.
 * - 'high': from 億 on each unit is the square of the one before: 兆 is 10^16, 京 is 10^32.
 * - 'any': chooses by the text, or by the script and the number.
 */
export const WAYS = Object.freeze(/** @type {const} */ ([
  'digits', 'low', 'tenThousand', 'middle', 'high', 'any',
]));

/**
 * How an exact quantity is read or written: a way with units, or 'any'.
 */
export const METHODS = Object.freeze(/** @type {const} */ ([
  'low', 'tenThousand', 'middle', 'high', 'any',
]));

/**
 * The script of a text that is written: 萬 or 万. Both are read.
 *
 * - 'traditional': 萬, 億.
 * - 'simplified': 万, 亿.
 */
export const SCRIPTS = Object.freeze(/** @type {const} */ ([
  'traditional', 'simplified',
]));

/**
 * The case of a number that is written: 壹拾 or 一十. Both are read.
 *
 * - 'upper': 壹, 拾: the characters of cheques.
 * - 'lower': 一, 十.
 */
export const CASES = Object.freeze(/** @type {const} */ ([
  'upper', 'lower',
]));

/**
 * A unit; each is greater than the one before. A search takes the greatest one that it looks
 * for: 'zhao' is the one to use, since in sentences greater ones nearly always mean something
 * else.
 *
 * - 'ge': 個, 个.
 * - 'shi': 十, 拾.
 * - 'bai': 百, 佰.
 * - 'qian': 千, 仟.
 * - 'wan': 萬, 万.
 * - 'yi': 億, 亿.
 * - 'zhao': 兆.
 * - 'jing': 京.
 * - 'gai': 垓.
 * - 'zi': 秭.
 * - 'rang': 穰.
 * - 'gou': 溝, 沟.
 * - 'jian': 澗, 涧.
 * - 'zheng': 正.
 * - 'zai': 載, 载.
 * - 'ji': 極, 极.
 */
export const UNITS = Object.freeze(/** @type {const} */ ([
  'ge', 'shi', 'bai', 'qian', 'wan', 'yi', 'zhao', 'jing', 'gai', 'zi', 'rang', 'gou', 'jian',
  'zheng', 'zai', 'ji',
]));

/**
 * How a quantity is written.
 *
 * - 'whole': 35, 三十五, 3万.
 * - 'decimal': 3.5, 三點五, 3.5万.
 * - 'percent': 12.5%, 百分之五十.
 * - 'fraction': 三分之一, 千分之五.
 */
export const QUANTITY_FORMS = Object.freeze(/** @type {const} */ ([
  'whole', 'decimal', 'percent', 'fraction',
]));

/**
 * Why a reader may understand an expression as something other than its quantity. If several
 * reasons apply, 'part' is reported if it is among them, and otherwise the first in this list.
 *
 * - 'word': it is part of a word or a title, or the year of an era: 十二 of 十二指肠, 十一 of 双十一, 四十一
 * of 乾隆四十一年.
 * - 'digits': it is two or three Chinese digits, or more in rising order, or two numbers: 五一,
 * 一二三四, 十五十六.
 * - 'term': it is part of a term: 负二 of 负二项, 十六 of 十六进制.
 * - 'part': it is part of an expression with 折, 成, 半 or 分之几: 八五 of 八五折, 一 of 一个半; or its last 一
 * begins the next word: 两百一 of 两百一个月.
 * - 'time': it may be a time: 三点五 of 下午三点五, 十点零五.
 * - 'range': it is one end of a range whose ends share a unit or 百分之: 3 and 5万 of 3~5万.
 */
export const DOUBTS = Object.freeze(/** @type {const} */ ([
  'word', 'digits', 'term', 'part', 'time', 'range',
]));

/**
 * What an item of a text is: an expression that is in no phrase, or a phrase of a kind. What is
 * in brackets are the numbers first, second, third and fourth of a phrase, where a language has
 * no type of its own for its value.
 *
 * - 'expression': an expression in no phrase.
 * - 'date': a date or a part of one (the year, the month, the day).
 * - 'years': from a year to another one.
 * - 'months': from a month to another one of the same year.
 * - 'days': from a day to another one of the same month.
 * - 'time': a time of day (the hour as it is written, the minute, the second, the hour of 24).
 * - 'duration': a duration (hours, minutes and seconds).
 * - 'half': a number and a half, as 一个半小时 (the number without the half).
 * - 'length': a number with decimals, as 一米七五 (the number, the decimals, how many decimals there
 * are).
 * - 'score': two numbers that are compared.
 * - 'range': from a quantity to another one.
 * - 'money': a sum of money, as 三块五: the fen by their lower and their upper 32 bits, and 1; all
 * 0 if they are no whole number below 10^18.
 */
export const PHRASE_KINDS = Object.freeze(/** @type {const} */ ([
  'expression', 'date', 'years', 'months', 'days', 'time', 'duration', 'half', 'length', 'score',
  'range', 'money',
]));

/**
 * What is known of a phrase.
 *
 * - 'certain': it has a value.
 * - 'doubtful': it has a value, but may mean something else: 1000年 of 1000年前, 五到八 of 五到八折.
 * - 'refused': it has no value: it names a day or a time that does not exist, or does not rise.
 */
export const PHRASE_STATES = Object.freeze(/** @type {const} */ ([
  'certain', 'doubtful', 'refused',
]));

/**
 * What a text is meant to be, for the calls that say what may follow it and why it is refused:
 * each names the call that reads it.
 *
 * - 'amount': what chineseToAmount reads.
 * - 'signedAmount': what chineseToSignedAmount reads.
 * - 'typedAmount': what chineseToAmountAsTyped reads.
 * - 'typedSignedAmount': what chineseToSignedAmountAsTyped reads.
 * - 'date': what chineseToDate reads.
 * - 'figures': what yuanToFen reads.
 */
export const INPUTS = Object.freeze(/** @type {const} */ ([
  'amount', 'signedAmount', 'typedAmount', 'typedSignedAmount', 'date', 'figures',
]));

/**
 * The language of a message.
 *
 * - 'en': English, en.
 * - 'zh-Hans': Chinese in simplified script, zh-Hans.
 * - 'zh-Hant': Chinese in traditional script, zh-Hant.
 */
export const LANGUAGES = Object.freeze(/** @type {const} */ ([
  'en', 'zh-Hans', 'zh-Hant',
]));

/**
 * What is changed in a text to repair it.
 *
 * - 'insert': the character is inserted at the place.
 * - 'replace': the character replaces the one at the place.
 * - 'delete': the character at the place is deleted.
 */
export const CHANGES = Object.freeze(/** @type {const} */ ([
  'insert', 'replace', 'delete',
]));

/**
 * Why a text is not a number or a quantity. From 'start' on it is the rule that the wrong
 * character breaks; from 'bareTen' on, a rule of quantities alone.
 *
 * - 'empty': the text is empty without its white space and, for signed types, one sign.
 * - 'tooLarge': the number is above the type's maximum, or has more than 128 bits.
 * - 'tooSmall': the number is below the type's minimum.
 * - 'start': a numeral starts with a digit or 十: 百 of 百五.
 * - 'character': it is no digit or unit: 角 of 一角.
 * - 'digits': a digit is directly after it, in a numeral with units: 一 of 一二.
 * - 'units': a unit that is not greater is directly after it: 百 of 一百十.
 * - 'ge': no greater unit is after 個: 個 of 三個.
 * - 'groups': the same unit is used again: 萬 of 一萬二萬.
 * - 'bareTen': 十 has no 一 before it: 十 of 三千零十万.
 * - 'repeatedTen': 十 or 百 is directly after 十: the second 十 of 十十.
 * - 'afterZero': a unit is directly after 零: 万 of 一亿零万.
 * - 'weight': 两 may be a unit of weight: 两 of 二两.
 * - 'twoReadings': the unit can multiply one digit or all before it: 万 of 一百五万.
 * - 'leftOutZero': 零 or a unit seems to be left out: 二 of 一亿二千.
 * - 'denominator': the denominator is not a whole number above 0: 零 of 零分之一.
 */
export const FAULTS = Object.freeze(/** @type {const} */ ([
  'empty', 'tooLarge', 'tooSmall', 'start', 'character', 'digits', 'units', 'ge', 'groups',
  'bareTen', 'repeatedTen', 'afterZero', 'weight', 'twoReadings', 'leftOutZero', 'denominator',
]));

const STATUSES = /** @type {Array<any>} */ ([
  'done', 'empty', 'incorrect', 'tooLarge', 'tooSmall', 'notUtf8', 'noRoom', 'notHeld', 'unknown',
  'unfinished', 'none', 'notADate', 'notAQuantity',
]);

const CURRENCY = 1;
const ROUND_YUAN = 2;
const UPRIGHT_CLOSING = 4;
const BRACKETED_SIGN = 8;

const PLAIN_DIGITS = 1;
const STANDS_ALONE = 2;
const ABOUT = 4;
const ONE_CHARACTER = 8;

const DOUBTFUL = 16;
const EXPANDED = 32;
const CANONICAL = 64;
const COMPACT = 128;
const CODES = 256;

const YAO = 1;

const MOST_BYTES = 234n;
const MOST_QUANTITY_BYTES = 471n;
const MOST_FIGURES_BYTES = 80n;
const MOST_AMOUNT_BYTES = 117n;
const MOST_SIGNED_AMOUNT_BYTES = 129n;
const MOST_DATE_BYTES = 39n;
const MOST_MESSAGE_BYTES = 512n;
const MOST_ANSWER_BYTES = 256n;

const TEXTS = {
  empty: 'a chinese number cannot be empty',
  incorrect: 'the chinese number is incorrect',
  tooLarge: 'number is too large',
  tooSmall: 'number is too small',
  amountUnfinished: 'the amount is not finished',
  amountIncorrect: 'the amount is incorrect',
  dateUnfinished: 'the date is not finished',
  dateIncorrect: 'the date is incorrect',
  notADate: 'there is no such date',
  notAQuantity: 'the denominator is 0',
};

// .. up to here.

// How many bits the flags of what is found have. The bits above them are the code of a doubt: its
// place in DOUBTS, counted from 1, or 0 for none.
const DOUBT = 4;

// What the text of a date gives, which the last number of the phrase is the sum of; and the hour of
// 24 of a time, if it is not known.
const YEAR_GIVEN = 1, MONTH_GIVEN = 2, DAY_GIVEN = 4, NO_HOUR = 255;

const DONE = STATUSES.indexOf('done'), NO_ROOM = STATUSES.indexOf('noRoom');
const DIGITS = WAYS.indexOf('digits'), FIRST_METHOD = WAYS.indexOf('low');
const TEN_THOUSAND = WAYS.indexOf('tenThousand'), ANY = WAYS.indexOf('any');
const ZHAO = UNITS.indexOf('zhao');
const FIRST_SIGNED = KINDS.indexOf('i8');

// An option with its possible names and its default. The name of the last call is kept with its
// code, since most calls use the same name again.
/** @param {string} what @param {readonly string[]} names @param {string} usual */
function option(what, names, usual) {
  const code = names.indexOf(usual);
  return { what, names, usual: code, last: usual, code };
}

const KIND = option('kind', KINDS, 'i128');
const WAY = option('way', WAYS, 'any');
const METHOD = option('method', METHODS, 'any');
const SCRIPT = option('script', SCRIPTS, 'simplified');
const CASE = option('case', CASES, 'lower');
const YUAN = option('yuan', ['元', '圆'], '元');
const CLOSING = option('closing', ['整', '正'], '整');
const UNIT = option('unit', UNITS, 'zhao');
const QUANTITY_FORM = option('form', QUANTITY_FORMS, 'whole');
const INPUT = option('input', INPUTS, 'amount');
const LANGUAGE = option('language', LANGUAGES, 'en');
const STATUS = option('status', STATUSES, 'done');
const NO_OPTIONS = {};

/** @type {Record<string, (name: string) => boolean>} Whether a call has an option with a name. */
const HAS = {
  reading: (it) => it === 'kind' || it === 'way',
  printing: (it) => it === 'kind' || it === 'way' || it === 'script' || it === 'case',
  amounts: (it) => it === 'script' || it === 'currency' || it === 'yuan' || it === 'closing',
  signedAmounts: (it) => it === 'bracketedSign' || HAS.amounts(it),
  dates: (it) => it === 'script',
  searches: (it) => it === 'upper' || it === 'greatest',
  quantities: (it) => it === 'method',
  writing: (it) => it === 'method' || it === 'script' || it === 'case',
  replacing: (it) => it === 'about' || it === 'oneCharacter' || it === 'doubtful'
    || HAS.searches(it) || HAS.quantities(it),
  figures: (it) => it === 'expanded' || it === 'canonical' || HAS.replacing(it),
  phrases: (it) => it === 'compact' || it === 'codes' || HAS.figures(it),
  speech: (it) => it === 'script' || it === 'method' || it === 'yao',
  columns: (it) => it === 'statuses' || it === 'into',
};

/**
 * @typedef {typeof KINDS[number]} Kind
 * @typedef {typeof WAYS[number]} Way
 * @typedef {typeof METHODS[number]} Method
 * @typedef {typeof SCRIPTS[number]} Script
 * @typedef {typeof CASES[number]} Case
 * @typedef {typeof UNITS[number]} Unit
 * @typedef {typeof QUANTITY_FORMS[number]} QuantityForm
 * @typedef {typeof DOUBTS[number]} Doubt
 * @typedef {Exclude<typeof PHRASE_KINDS[number], 'expression'>} PhraseKind
 * @typedef {typeof PHRASE_STATES[number]} PhraseState
 * @typedef {typeof INPUTS[number]} Input
 * @typedef {typeof LANGUAGES[number]} Language
 * @typedef {typeof CHANGES[number]} Change
 * @typedef {typeof FAULTS[number]} Fault
 * @typedef {{ kind?: Kind, way?: Way }} ReadOptions
 * @typedef {{ kind?: Kind, way?: Way, script?: Script, case?: Case }} PrintOptions
 * @typedef {{ script?: Script }} ScriptOptions
 * @typedef {'元' | '圆'} Yuan
 * @typedef {'整' | '正'} Closing
 * @typedef {{ script?: Script, currency?: boolean, yuan?: Yuan, closing?: Closing }} AmountOptions
 * @typedef {AmountOptions & { bracketedSign?: boolean }} SignedAmountOptions
 * @typedef {{ upper?: boolean, greatest?: Unit }} Wanted
 * @typedef {{ method?: Method }} MethodOptions
 * @typedef {{ method?: Method, script?: Script, case?: Case }} QuantityOptions
 * @typedef {{ about?: boolean, oneCharacter?: boolean, doubtful?: boolean }} Included
 * @typedef {Wanted & MethodOptions & Included} ReplaceOptions
 * @typedef {ReplaceOptions & { expanded?: boolean, canonical?: boolean }} FiguresOptions
 * @typedef {FiguresOptions & { compact?: boolean, codes?: boolean }} TextOptions
 * @typedef {{ script?: Script, method?: Method, yao?: boolean }} SpeechOptions
 * @typedef {{ year: number, month: number, day: number }} BillDate
 * @typedef {{ year?: number, month?: number, day?: number }} PartialDate
 * @typedef {{ hour: number, minute: number, second: number, hourOfDay?: number }} ClockTime
 * @typedef {{ hours: number, minutes: number, seconds: number }} Duration
 * @typedef {[first: number, last: number]} FirstAndLast
 * @typedef {{
 *   date: PartialDate, years: FirstAndLast, months: FirstAndLast, days: FirstAndLast,
 *   time: ClockTime, duration: Duration, half: Quantity, length: Quantity,
 *   score: [one: number, other: number], range: [low: Quantity, high: Quantity], money: Quantity,
 * }} PhraseValues
 * @typedef {{ [Name in PhraseKind]: Phrase<Name> }[PhraseKind]} AnyPhrase
 * @typedef {{ charIndex: number, start: number, end: number }} Place
 * @typedef {{ charIndex: number, index: number }} Point
 * @typedef {Point & { mayEnd: boolean, whiteSpace: boolean, characters: string[] }} Expected
 * @typedef {Point & { change: Change, character: string }} Repair
 * @typedef {keyof typeof MESSAGES} NumeralCode
 * @typedef {keyof typeof AMOUNT_MESSAGES} AmountCode
 * @typedef {keyof typeof DATE_MESSAGES} DateCode
 * @typedef {Exclude<NumeralCode | AmountCode | DateCode, 'unsafe' | 'outOfMemory'>} Status
 * @typedef {'done' | 'none' | Status | 'unsafe'} RowStatus
 * @typedef {Int8Array | Int16Array | Int32Array | Uint8Array | Uint16Array | Uint32Array
 *   | Float64Array} NumberArray
 * @typedef {BigInt64Array | BigUint64Array} BigIntArray
 * @typedef {ReadonlyArray<bigint | number | null> | NumberArray | BigIntArray} WholeColumn
 * @typedef {ReadonlyArray<string | null>} TextColumn
 * @typedef {{ statuses?: RowStatus[] }} ColumnOptions
 */

/**
 * @template Into
 * @typedef {ColumnOptions & { into?: Into }} IntoOptions
 */

/**
 * @template Value
 * @typedef {(Value | null)[]} Column
 */

const MESSAGES = Object.freeze({
  empty: TEXTS.empty,
  incorrect: TEXTS.incorrect,
  tooLarge: TEXTS.tooLarge,
  tooSmall: TEXTS.tooSmall,
  notHeld: 'does not hold the number', // after the name of the kind
  unsafe: 'a Number does not hold the number exactly',
  notAQuantity: TEXTS.notAQuantity,
  outOfMemory: 'out of memory',
});

const AMOUNT_MESSAGES = Object.freeze({
  unfinished: TEXTS.amountUnfinished,
  incorrect: TEXTS.amountIncorrect,
  tooLarge: TEXTS.tooLarge,
  tooSmall: TEXTS.tooSmall,
  unsafe: 'a Number does not hold the amount exactly',
});

const DATE_MESSAGES = Object.freeze({
  unfinished: TEXTS.dateUnfinished,
  incorrect: TEXTS.dateIncorrect,
  notADate: TEXTS.notADate,
});

/**
 * What the message of a refusal is computed from: the call of the module, the string that was read,
 * and the codes of how it was read.
 * @type {WeakMap<Refusal, [name: string, string: string, codes: number[]]>}
 */
const SOURCES = new WeakMap();

/** A refusal, with the place of the wrong character if there is one. */
class Refusal extends Error {
  /**
   * @param {string} message
   * @param {Place} [place]
   */
  constructor(message, place) {
    super(place ? `${message} (position: ${place.charIndex})` : message);
    /** For 'incorrect': how many characters come before the wrong one. */
    this.charIndex = place?.charIndex;
    /**
     * For 'incorrect': where it starts in the string, in UTF-16 code units, as setSelectionRange
     * and slice take it.
     */
    this.start = place?.start;
    /** For 'incorrect': where it ends, likewise. */
    this.end = place?.end;
    /**
     * For a call that converts a column: the index of the row.
     * @type {number | undefined}
     */
    this.row = undefined;
  }

  /**
   * The message for the person who typed the text, in a language of LANGUAGES: why the text is
   * refused, and how it can be repaired if a change of one character does that. If a number, an
   * amount or a date could not be written, it says why. For 'unsafe' it is that of 'tooLarge', and
   * for 'outOfMemory' it is `message`.
   *
   * The message is computed by each call. Throws a TypeError if the language is unknown.
   *
   * @param {Language} language
   * @returns {string}
   */
  messageIn(language) {
    const chosen = codeAmong(LANGUAGE, language), source = SOURCES.get(this);
    if (source) return messageFor(source, chosen);
    const { code } = /** @type {any} */ (this);
    const status = STATUSES.indexOf(code === 'unsafe' ? 'tooLarge' : code);
    return status < 0 ? this.message : statusIn(status, chosen);
  }
}

// A refusal of a string that was read, with the source of its message.
/**
 * @template {Refusal} Thrown
 * @param {Thrown} error
 * @param {string} name
 * @param {string} string
 * @param {number[]} codes
 */
function about(error, name, string, codes) {
  SOURCES.set(error, [name, string, codes]);
  return error;
}

/**
 * A text could not be read as a number or quantity, or a number or quantity could not be written.
 *
 * `code` is
 * - 'empty': the text is empty without its white space and, for a signed type, one sign;
 * - 'incorrect': a character cannot be at its place;
 * - 'tooLarge', 'tooSmall': the number read does not fit the type, or 'low' cannot write the
 *   number;
 * - 'unsafe': the number read is not a safe integer, so a Number does not hold it exactly;
 * - 'notHeld': the type does not hold the number to write, or a number of a quantity;
 * - 'notAQuantity': the denominator is 0;
 * - 'outOfMemory': the host has no memory for the text; any call can throw this.
 */
export class NumeralError extends Refusal {
  /**
   * @param {NumeralCode} code
   * @param {Kind} [kind]
   * @param {Place} [place]
   */
  constructor(code, kind, place) {
    super(code === 'notHeld' ? `${kind} ${MESSAGES[code]}` : MESSAGES[code], place);
    this.name = 'NumeralError';
    this.code = code;
    /**
     * The integer type of the number; undefined if a quantity was read or written, and for
     * 'outOfMemory'.
     */
    this.kind = kind;
  }
}

/**
 * A text could not be read as an amount of money, or an amount could not be written.
 *
 * `code` is
 * - 'unfinished': the text is not an amount, but more text can make it one, as for '壹佰元';
 * - 'incorrect': no amount begins with the text up to and including a character;
 * - 'unsafe': the fen are not a safe integer, so a Number does not hold them exactly;
 * - 'tooLarge': the amount is 10n ** 18n fen or more, or figures after a minus are that large;
 * - 'tooSmall': the amount to write is -(10n ** 18n) fen or less, or `amountToChinese` got a
 *   negative amount.
 */
export class AmountError extends Refusal {
  /**
   * @param {AmountCode} code
   * @param {Place} [place]
   * @param {string} [hint] What the message adds after a colon.
   */
  constructor(code, place, hint) {
    super(AMOUNT_MESSAGES[code] + (hint ? `: ${hint}` : ''), place);
    this.name = 'AmountError';
    this.code = code;
  }
}

/**
 * A text could not be read as a date, or a date could not be written.
 *
 * `code` is
 * - 'unfinished': the text is not a date, but more text can make it one;
 * - 'incorrect': no date begins with the text up to and including a character;
 * - 'notADate': the date to write does not exist.
 */
export class DateError extends Refusal {
  /**
   * @param {DateCode} code
   * @param {Place} [place]
   */
  constructor(code, place) {
    super(DATE_MESSAGES[code], place);
    this.name = 'DateError';
    this.code = code;
  }
}

/** @returns {any} The exports of a new instance of the module, with this file's version. */
function instance() {
  const { exports } = new WebAssembly.Instance(compiled);
  const [major, minor, patch] = VERSION.split('.').map(Number);
  const wanted = major * 1_000_000 + minor * 1000 + patch;
  const found = /** @type {any} */ (exports).chinese_number_version?.();
  if (found !== wanted) throw new Error(`the module has version ${found}, not ${wanted}`);
  return { ...exports }; // lookups are faster in an ordinary object
}

let library = instance();
// Whether a call has begun and not ended, because it trapped (for example on a stack overflow of
// the host) or there was no memory. The next call then uses a new instance, since this one's memory
// may be half written.
let isInside = false;

// The memory that is lent: a quantity (56 bytes; a reading, an amount, a date, a repair and a fault
// fit there too), a length (8), the second quantity of a range (56, and 8 that are not used), spans
// (24 each) or phrases (56 each; what is expected, of 224 bytes, fits there too) and the text. In
// both modules a size has 8 bytes.
const READING = Math.ceil(Number(library.__heap_base.value) / 16) * 16;
const LENGTH = READING + 56;
const HIGH = LENGTH + 8;
const SPANS = HIGH + 64;
const MOST_SPANS = 64, FEW_SPANS = 8, WORK_BYTES = 24 * FEW_SPANS + 8;
const TEXT = SPANS + 56 * MOST_SPANS;
const [READING_AT, LENGTH_AT, HIGH_AT, SPANS_AT, TEXT_AT] =
  [READING, LENGTH, HIGH, SPANS, TEXT].map(BigInt);
const MOST_PRINTED = Number(MOST_BYTES);
const PAGE = 65536;
const MOST_KEPT = 2 ** 24;
const MOST_SHOWN = 60;
const encoder = new TextEncoder(), decoder = new TextDecoder('utf-8', { ignoreBOM: true });
// Up to this many code units, writing them one by one is faster than the encoder.
const FEW = 40;
// For each number of code units that a printed text may have, a list to fill with them.
const UNITS_OF = Array.from({ length: MOST_PRINTED / 3 + 1 }, (_, it) => Array(it).fill(0));
/** @type {BigInt64Array} The quantity (or reading, amount or date), the length, the second one. */
let words;
/** @type {Int32Array} The halves of these and of what follows, the lower half first. */
let halves;
// The places of parts of these.
const CHANGE_HALF = 4, FORM_HALF = 8, LENGTH_WORD = 7, LENGTH_HALF = 14, HIGH_WORD = 8;
const SPANS_HALF = 32;
/** @type {Uint8Array} */
let text = new Uint8Array(0);

/** @param {number} bytes How many bytes of text are lent to a call, which then passes `ended`. */
function lend(bytes) {
  if (isInside || bytes >= text.length || text.length > MOST_KEPT) makeRoom(bytes);
  isInside = true;
}

/** @param {number} bytes */
function makeRoom(bytes) {
  // The memory of an instance never shrinks, so the next short text replaces an instance with much.
  if (isInside || (text.length > MOST_KEPT && bytes < MOST_KEPT)) {
    isInside = true;
    library = instance();
  }
  const { memory } = library, missing = TEXT + bytes - memory.buffer.byteLength;
  if (missing > 0) grow(memory, Math.ceil(missing / PAGE));
  // A memory has a new buffer after it grows, and so has a new instance.
  words = new BigInt64Array(memory.buffer, READING, (SPANS - READING) / 8);
  halves = new Int32Array(memory.buffer, READING);
  text = new Uint8Array(memory.buffer, TEXT);
}

/** @param {number} status */
function ended(status) {
  isInside = false;
  return status;
}

/** @param {any} memory @param {number} pages */
function grow(memory, pages) {
  try {
    // A 64-bit memory counts its pages with a BigInt, but early hosts and 32-bit memories use a
    // Number.
    try {
      memory.grow(BigInt(pages));
    } catch (error) {
      if (!(error instanceof TypeError)) throw error;
      memory.grow(pages);
    }
  } catch (cause) {
    throw Object.assign(new NumeralError('outOfMemory'), { cause });
  }
}

/** @param {string} string */
const cut = (string) =>
  string.length > MOST_SHOWN ? `${string.slice(0, MOST_SHOWN)}...` : string;

/** @param {string} string */
const quoted = (string) => JSON.stringify(cut(string));

// A value as a message shows it, with its type: `5 (a number)`. It calls no method of the value, which
// could throw.
/** @param {unknown} value */
function shown(value) {
  if (value === undefined || value === null) return String(value);
  if (typeof value === 'string') return `${quoted(value)} (a string)`;
  if (typeof value === 'function') return 'a function';
  if (typeof value === 'object') return shownObject(value);
  if (typeof value !== 'bigint') return `${cut(String(value))} (a ${typeof value})`;
  return BigInt.asIntN(128, value) === value ? `${value}n (a BigInt)` : 'a long BigInt';
}

/** @param {object} object */
function shownObject(object) {
  let name = 'Object';
  try {
    [, name] = /^\[object (.*)\]$/s.exec(Object.prototype.toString.call(object)) ?? [, name];
  } catch {
    // The getter of its name throws, or it is a proxy that is revoked.
  }
  if (name === 'Array') return 'an array';
  return name === 'Object' ? 'an object' : `an object (${cut(name)})`;
}

/** @param {string} string */
function refuseNoString(string) {
  if (typeof string !== 'string') throw new TypeError(`expected a string, not ${shown(string)}`);
}

// Writes a string where the module reads it, as UTF-8, and its length in bytes. Half of a surrogate
// pair becomes U+FFFD, so the text is UTF-8 and the module need not test it. After the text there
// is a buffer of `room` bytes.
/** @param {string} string @param {number} room */
function hand(string, room = 0) {
  refuseNoString(string);
  lend(3 * string.length + room);
  halves[LENGTH_HALF] = string.length > FEW ? encoded(string, text) : written(string, text, 0);
}

// Copies bytes there likewise, whatever they are.
/** @param {Uint8Array} bytes @param {number} room */
function handBytes(bytes, room) {
  lend(bytes.length + room);
  text.set(bytes);
  words[LENGTH_WORD] = BigInt(bytes.length);
}

/** @param {string} string @param {Uint8Array} bytes */
const encoded = (string, bytes) => Number(encoder.encodeInto(string, bytes).written);

// Numerals have characters of one and of three bytes.
/** @param {string} string @param {Uint8Array} bytes @param {number} start @returns {number} */
function written(string, bytes, start) {
  let at = start;
  for (let index = 0; index < string.length; index++) {
    const unit = string.charCodeAt(index);
    if (unit < 0x80) {
      bytes[at++] = unit;
    } else if (unit < 0x800 || (unit & 0xf800) === 0xd800) {
      return start + encoded(string, bytes.subarray(start));
    } else {
      bytes[at++] = 0xe0 | unit >> 12;
      bytes[at++] = 0x80 | unit >> 6 & 0x3f;
      bytes[at++] = 0x80 | unit & 0x3f;
    }
  }
  return at;
}

// The place in the string of the wrong character. A word of the reading counts the characters
// before it, and the next word the bytes.
/** @param {number} status @param {number} word */
function placeOf(status, word) {
  if (STATUSES[status] !== 'incorrect') return undefined;
  const charIndex = Number(words[word]), byteIndex = Number(words[word + 1]);
  const start = unitsBetween(0, byteIndex);
  return { charIndex, start, end: start + (text[byteIndex] < 0xf0 ? 1 : 2) };
}

/** The text that was printed: each of its characters has three bytes. */
function printed() {
  const bytes = text, units = UNITS_OF[halves[LENGTH_HALF] / 3];
  for (let index = 0; index < units.length; index++) {
    const at = 3 * index;
    units[index] = (bytes[at] & 0xf) << 12 | (bytes[at + 1] & 0x3f) << 6 | bytes[at + 2] & 0x3f;
  }
  return String.fromCharCode.apply(null, units);
}

// Converting a Number to a BigInt is faster through its halves.
const whole = new BigInt64Array(1), halvesOfWhole = new Int32Array(whole.buffer);

/** @param {bigint | number} number */
function wholeOf(number) {
  if (typeof number === 'bigint') return number;
  if (!Number.isSafeInteger(number)) {
    throw new TypeError(`expected a BigInt or a safe integer, not ${shown(number)}`);
  }
  halvesOfWhole[0] = number;
  halvesOfWhole[1] = Math.floor(number / 2 ** 32);
  return whole[0];
}

// The bits of a number above the lowest 64, if a kind of 128 bits holds it.
/** @param {bigint | number} number @param {number} kind */
function highOf(number, kind) {
  const isSigned = kind >= FIRST_SIGNED;
  if (typeof number === 'number' && (number >= 0 || isSigned)) return number < 0 ? -1n : 0n;
  const high = BigInt(number) >> 64n;
  const held = isSigned ? BigInt.asIntN(64, high) : BigInt.asUintN(64, high);
  if (held !== high) throw new NumeralError('notHeld', KINDS[kind]);
  return high;
}

/** The first word of the reading as a Number, which is exact if it is a safe integer. */
const firstWord = () => halves[1] * 2 ** 32 + (halves[0] >>> 0);

/** @param {ReturnType<typeof option>} option @param {string | undefined} name */
function codeOf(option, name) {
  if (name === undefined) return option.usual;
  return name === option.last ? option.code : codeAmong(option, name);
}

/** @param {ReturnType<typeof option>} option @param {string} name */
function codeAmong(option, name) {
  const { what, names } = option, code = names.indexOf(name);
  if (code < 0) {
    const other = typeof name === 'string' ? quoted(name) : shown(name);
    throw new TypeError(`${what} must be one of ${names.join(', ')}, not ${other}`);
  }
  Object.assign(option, { last: name, code });
  return code;
}

/** @param {boolean | undefined} it @param {string} name */
function flagOf(it, name) {
  if (it === undefined) return 0;
  if (typeof it !== 'boolean') {
    throw new TypeError(`${name} must be true or false, not ${shown(it)}`);
  }
  return Number(it);
}

// Refuses unknown options, so that none is ignored silently.
/** @param {object} options @param {(name: string) => boolean} has */
function refuseOthers(options, has) {
  if (options === NO_OPTIONS) return;
  if (typeof options !== 'object' || options === null || Array.isArray(options)) {
    throw new TypeError(`options must be an object, not ${shown(options)}`);
  }
  for (const it in options) {
    if (has(it) || !Object.keys(options).includes(it)) continue;
    throw new TypeError(`unknown option ${quoted(it)}`);
  }
}

/**
 * Reads a numeral as a Number: `toNumber('一百二')` is 120.
 *
 * The kind is 'i128' by default, and the way 'any'. Throws a NumeralError if the text is not a
 * numeral, or its number does not fit the kind. Throws a NumeralError with the code 'unsafe' if the
 * number is past 2 ** 53 - 1 on either side of zero, where a Number is not exact; `toBigInt` reads
 * such numbers. Throws a TypeError if the text is not a string, or an option or its value is
 * unknown.
 *
 * @param {string} string
 * @param {ReadOptions} options
 * @returns {number}
 */
export function toNumber(string, options = NO_OPTIONS) {
  return safeNumber(readNumeral(string, options, false, ANY));
}

/**
 * Reads a numeral as a BigInt: `toBigInt('一百二')` is 120n. It reads like `toNumber`, but never
 * throws 'unsafe'.
 *
 * @param {string} string
 * @param {ReadOptions} options
 * @returns {bigint}
 */
export function toBigInt(string, options = NO_OPTIONS) {
  return wholeNumber(readNumeral(string, options, false, ANY));
}

// Reads a numeral with the module, and returns the code of its kind. A plain numeral is read as
// digits, any other by the way; `any` is the code of the way that 'any' means.
/**
 * @param {string} string
 * @param {ReadOptions} options
 * @param {boolean} isPlain
 * @param {number} any
 */
function readNumeral(string, options, isPlain, any) {
  refuseOthers(options, HAS.reading);
  const kind = codeOf(KIND, options.kind), way = codeOf(WAY, options.way);
  hand(string);
  const chosen = isPlain ? DIGITS : way === ANY ? any : way;
  const status = ended(library.chinese_number_read_utf8(
    TEXT_AT, words[LENGTH_WORD], kind, chosen, READING_AT));
  if (status === DONE) return kind;
  const error = new NumeralError(STATUSES[status], KINDS[kind], placeOf(status, 2));
  throw about(error, 'chinese_number_message', string, [kind, chosen]);
}

/** @param {number} kind The kind of the number that was read. */
function safeNumber(kind) {
  const number = firstWord(), sign = number < 0 ? -1 : 0;
  const isHeld = halves[2] === sign && halves[3] === sign && (sign === 0 || kind >= FIRST_SIGNED);
  if (!isHeld || !Number.isSafeInteger(number)) throw new NumeralError('unsafe', KINDS[kind]);
  return number;
}

/** @param {number} kind The kind of a number read. @param {number} word Where it begins. */
function wholeNumber(kind, word = 0) {
  const low = BigInt.asUintN(64, words[word]);
  if (halves[2 * word + 2] === 0 && halves[2 * word + 3] === 0) return low;
  const number = (words[word + 1] << 64n) | low;
  return kind >= FIRST_SIGNED ? number : BigInt.asUintN(128, number);
}

/**
 * Writes a number: `toChinese(120)` is '一百二十'. The number is a BigInt or a safe integer.
 *
 * The defaults are the kind 'i128', the way 'any', the script 'simplified' and the case 'lower'.
 * Throws a NumeralError if the kind does not hold the number or the way cannot write it. Throws a
 * TypeError if the number is of another type, or an option or its value is unknown.
 *
 * @param {bigint | number} number
 * @param {PrintOptions} options
 * @returns {string}
 */
export function toChinese(number, options = NO_OPTIONS) {
  refuseOthers(options, HAS.printing);
  const kind = codeOf(KIND, options.kind);
  const way = codeOf(WAY, options.way);
  const script = scriptOf(options), letterCase = codeOf(CASE, options.case);
  const whole = wholeOf(number), high = highOf(number, kind);
  lend(MOST_PRINTED);
  const status = ended(library.chinese_number_print(
    whole, high, kind, way, script, letterCase, TEXT_AT, MOST_BYTES, LENGTH_AT));
  if (status !== DONE) throw new NumeralError(STATUSES[status], KINDS[kind]);
  return printed();
}

/**
 * Writes an amount of money in capitals, as on a cheque: `amountToChinese(1500)` is '壹拾伍元整'.
 *
 * The amount is in fen, hundredths of a yuan, as a BigInt or a safe integer. The script is
 * 'simplified' by default. `currency: true` adds the prefix 人民币; `yuan` is '元' by default, or '圆';
 * `closing` is '整' by default, or '正'. Throws an AmountError if the amount is below zero, which
 * `signedAmountToChinese` writes, or 10n ** 18n or more. Throws a TypeError if the amount is of
 * another type, or an option or its value is unknown.
 *
 * @param {bigint | number} fen
 * @param {AmountOptions} options
 * @returns {string}
 */
export function amountToChinese(fen, options = NO_OPTIONS) {
  refuseOthers(options, HAS.amounts);
  return capitalsOf(fen, options, 'chinese_amount_print', MOST_AMOUNT_BYTES);
}

/**
 * Writes an amount in capitals that may be negative, as on a red invoice:
 * `signedAmountToChinese(-1500)` is '负壹拾伍元整', in traditional script '負壹拾伍元整'.
 *
 * It writes like `amountToChinese`, with the prefix 负 if the amount is below zero, or （负数） with
 * `bracketedSign: true`. Throws an AmountError if the amount is 10n ** 18n or more, or
 * -(10n ** 18n) or less.
 *
 * @param {bigint | number} fen
 * @param {SignedAmountOptions} options
 * @returns {string}
 */
export function signedAmountToChinese(fen, options = NO_OPTIONS) {
  refuseOthers(options, HAS.signedAmounts);
  return capitalsOf(fen, options, 'chinese_signed_amount_print', MOST_SIGNED_AMOUNT_BYTES);
}

/**
 * Writes fen in capitals with a call of the module.
 * @param {bigint | number} fen
 * @param {SignedAmountOptions} options
 * @param {string} name
 * @param {bigint} most
 */
function capitalsOf(fen, options, name, most) {
  const script = scriptOf(options), form = formOf(options), whole = wholeOf(fen);
  const isBelow = fen < 0;
  if (isBelow && name === 'chinese_amount_print') {
    const hint = 'signedAmountToChinese writes amounts below zero';
    throw new AmountError('tooSmall', undefined, hint);
  }
  // The module takes 64 bits, which must hold the fen.
  if (BigInt.asIntN(64, whole) !== whole) throw new AmountError(isBelow ? 'tooSmall' : 'tooLarge');
  lend(MOST_PRINTED);
  const status = ended(library[name](whole, script, form, TEXT_AT, most, LENGTH_AT));
  if (status !== DONE) throw new AmountError(STATUSES[status]);
  return printed();
}

/** @param {ScriptOptions} options */
const scriptOf = (options) => codeOf(SCRIPT, options.script);

// The form of an amount: a bit for each option that differs from its default.
/** @param {SignedAmountOptions} options */
function formOf(options) {
  return CURRENCY * flagOf(options.currency, 'currency') + ROUND_YUAN * codeOf(YUAN, options.yuan)
    + UPRIGHT_CLOSING * codeOf(CLOSING, options.closing)
    + BRACKETED_SIGN * flagOf(options.bracketedSign, 'bracketedSign');
}

/**
 * Reads an amount of money in capitals, and returns its fen as a Number:
 * `chineseToAmount('壹拾伍元整')` is 1500.
 *
 * Throws an AmountError if the text is not an amount. The code is 'unsafe' if the fen are past
 * 2 ** 53 - 1, where a Number is not exact; `chineseToAmountBigInt` reads such amounts. Throws a
 * TypeError if the text is not a string. White space is refused like any other character.
 *
 * @param {string} string
 * @returns {number}
 */
export function chineseToAmount(string) {
  return safeFenOf(string, 'chinese_amount_read');
}

/**
 * Reads an amount of money in capitals, as `chineseToAmount` does, and returns its fen as a BigInt:
 * `chineseToAmountBigInt('壹拾伍元整')` is 1500n.
 *
 * @param {string} string
 * @returns {bigint}
 */
export function chineseToAmountBigInt(string) {
  return fenOf(string, 'chinese_amount_read');
}

/**
 * Reads an amount in capitals that may be negative: `chineseToSignedAmount('负壹拾伍元整')` is -1500.
 *
 * It reads like `chineseToAmount`, with or without one prefix 负 or 負; 负零元整 is 0.
 *
 * @param {string} string
 * @returns {number}
 */
export function chineseToSignedAmount(string) {
  return safeFenOf(string, 'chinese_signed_amount_read');
}

/**
 * Reads an amount in capitals, as `chineseToSignedAmount` does, and returns its fen as a BigInt:
 * `chineseToSignedAmountBigInt('负壹拾伍元整')` is -1500n.
 *
 * @param {string} string
 * @returns {bigint}
 */
export function chineseToSignedAmountBigInt(string) {
  return fenOf(string, 'chinese_signed_amount_read');
}

/**
 * Reads an amount in capitals as people type it: `chineseToAmountAsTyped('人民币：壹拾 伍元整')` is 1500.
 *
 * It reads like `chineseToAmount`, but ignores white space, then one ⊗ at the start, and then one
 * : or ： directly after a leading 人民币. The place of an error is in the string as it is typed.
 *
 * @param {string} string
 * @returns {number}
 */
export function chineseToAmountAsTyped(string) {
  return safeFenOf(string, 'chinese_typed_amount_read');
}

/**
 * Reads an amount in capitals, as `chineseToAmountAsTyped` does, and returns its fen as a BigInt:
 * `chineseToAmountAsTypedBigInt('⊗壹拾伍元整')` is 1500n.
 *
 * @param {string} string
 * @returns {bigint}
 */
export function chineseToAmountAsTypedBigInt(string) {
  return fenOf(string, 'chinese_typed_amount_read');
}

/**
 * Reads an amount in capitals as people type it, or copy it from an invoice; it may be negative:
 * `chineseToSignedAmountAsTyped('⊗（负数）壹拾伍元整')` is -1500.
 *
 * It reads like `chineseToAmountAsTyped`, and ⊗ (or ⓧ), one of 负, 負, （负数） and （負數） (also with
 * ASCII parentheses), and 人民币 with or without a colon may come in any order at the start. It also
 * reads 人民币（大写）, with or without a colon.
 *
 * @param {string} string
 * @returns {number}
 */
export function chineseToSignedAmountAsTyped(string) {
  return safeFenOf(string, 'chinese_typed_signed_amount_read');
}

/**
 * Reads an amount in capitals, as `chineseToSignedAmountAsTyped` does, and returns its fen as a
 * BigInt: `chineseToSignedAmountAsTypedBigInt('⊗（负数）壹拾伍元整')` is -1500n.
 *
 * @param {string} string
 * @returns {bigint}
 */
export function chineseToSignedAmountAsTypedBigInt(string) {
  return fenOf(string, 'chinese_typed_signed_amount_read');
}

/**
 * Converts yuan to fen exactly, and returns a Number: `yuanToFen('1,409.50')` is 140950, and
 * `yuanToFen(15)` is 1500.
 *
 * The amount is a string of figures, a BigInt or a whole Number. Figures are digits, with a comma
 * before each group of three or without commas, after an optional minus (- or −) and an optional ¥.
 * A point may follow, with one or more digits; from the third on they must be 0. All of these may
 * be full-width. Nothing is rounded, and white space is refused.
 *
 * Throws an AmountError for any other text, and for 10n ** 16n yuan or more on either side of zero.
 * The code is 'unsafe' if the fen are past 2 ** 53 - 1; `yuanToFenBigInt` returns such amounts.
 * Throws a TypeError for other types and for numbers such as 15.5, which are not exact amounts.
 *
 * @param {string | bigint | number} yuan
 * @returns {number}
 */
export function yuanToFen(yuan) {
  return safeFenOf(figuresOf(yuan), 'chinese_figures_read');
}

/**
 * Converts yuan to fen, as `yuanToFen` does, and returns a BigInt: `yuanToFenBigInt('1,409.50')` is
 * 140950n.
 *
 * @param {string | bigint | number} yuan
 * @returns {bigint}
 */
export function yuanToFenBigInt(yuan) {
  return fenOf(figuresOf(yuan), 'chinese_figures_read');
}

/** @param {string | bigint | number} yuan */
function figuresOf(yuan) {
  if (typeof yuan === 'number' && !Number.isSafeInteger(yuan)) {
    throw new TypeError(
      `a Number of yuan must be a safe integer, not ${yuan}; for others, give a string`);
  }
  if (!['string', 'bigint', 'number'].includes(typeof yuan)) {
    throw new TypeError(
      `expected a string of figures, a BigInt or a whole Number, not ${shown(yuan)}`);
  }
  return String(yuan);
}

// Reads fen from a string with a call of the module.
/** @param {string} string @param {string} name */
function fenOf(string, name) {
  hand(string);
  const status = ended(library[name](TEXT_AT, words[LENGTH_WORD], READING_AT));
  if (status === DONE) return words[0];
  throw aboutInput(new AmountError(STATUSES[status], placeOf(status, 1)), name, string);
}

/** @param {string} string @param {string} name */
function safeFenOf(string, name) {
  fenOf(string, name);
  const fen = firstWord();
  if (!Number.isSafeInteger(fen)) throw new AmountError('unsafe');
  return fen;
}

/**
 * Writes a date in capitals, as on a cheque: `dateToChinese({ year: 2026, month: 1, day: 15 })` is
 * '贰零贰陆年零壹月壹拾伍日'.
 *
 * The date is an object with three whole Numbers as its own properties. The script is 'simplified'
 * by default. A Date is not accepted: it is an instant, whose day depends on the time zone. Throws
 * a DateError if the Gregorian calendar has no such day in the years 1 to 9999. Throws a TypeError
 * if the date is of another type, or an option or its value is unknown.
 *
 * @param {BillDate} date
 * @param {ScriptOptions} options
 * @returns {string}
 */
export function dateToChinese(date, options = NO_OPTIONS) {
  refuseOthers(options, HAS.dates);
  const script = scriptOf(options);
  // Only its own properties, since a class may count the years of another calendar.
  const { year, month, day } = { ...date };
  if (!Number.isInteger(year) || !Number.isInteger(month) || !Number.isInteger(day)) {
    throw new TypeError(noDate(date, [year, month, day]));
  }
  // The module takes 32 bits of each.
  if (year >>> 0 !== year || month >>> 0 !== month || day >>> 0 !== day) {
    throw new DateError('notADate');
  }
  lend(MOST_PRINTED);
  const status = ended(library.chinese_date_print(
    year, month, day, script, TEXT_AT, MOST_DATE_BYTES, LENGTH_AT));
  if (status !== DONE) throw new DateError(STATUSES[status]);
  return printed();
}

/** @param {unknown} date @param {unknown[]} numbers Its year, month and day. */
function noDate(date, numbers) {
  const other = shown(date);
  return other === 'an object'
    ? `year, month and day must be whole Numbers, not ${numbers.map(shown).join(', ')}`
    : `expected an object with year, month and day, not ${other}`;
}

/**
 * Reads a date in capitals: `chineseToDate('贰零贰陆年零壹月壹拾伍日')` is
 * { year: 2026, month: 1, day: 15 }.
 *
 * Throws a DateError if the text is not a date, and a TypeError if it is not a string. White space
 * is refused like any other character.
 *
 * @param {string} string
 * @returns {BillDate}
 */
export function chineseToDate(string) {
  hand(string);
  const status = ended(library.chinese_date_read(TEXT_AT, words[LENGTH_WORD], READING_AT));
  if (status === DONE) return { year: halves[0], month: halves[1], day: halves[2] };
  const error = new DateError(STATUSES[status], placeOf(status, 2));
  throw aboutInput(error, 'chinese_date_read', string);
}

// The calls of the module that read the inputs, in the order of INPUTS.
const READERS = [
  'chinese_amount_read', 'chinese_signed_amount_read', 'chinese_typed_amount_read',
  'chinese_typed_signed_amount_read', 'chinese_date_read', 'chinese_figures_read',
];

/** @param {Refusal} error @param {string} reader @param {string} string */
const aboutInput = (error, reader, string) =>
  about(error, 'chinese_input_message', string, [READERS.indexOf(reader)]);

// A column is converted by some calls of the module, each for some rows. The memory that is lent
// for a call has the values of its rows, of up to 16 bytes each; where the texts begin, 0, and where
// each of them ends; a status for each row; a bit for each row that the module is given; and the
// texts.
const ROWS = 1024, ROOM = 12 * 10_000;
const ENDS = TEXT + 16 * ROWS, STATES = ENDS + 8 * ROWS + 16, PRESENT = STATES + 4 * ROWS;
const BYTES = PRESENT + ROWS / 8;
const [ROOM_LONG, BITS_LONG, ENDS_AT, CODES_AT, PRESENT_AT, BYTES_AT] =
  [ROOM, ROWS / 8, ENDS, STATES, PRESENT, BYTES].map(BigInt);
const NONE = STATUSES.indexOf('none');
// How many halves the values have that the module takes.
const NUMBER = 4, AMOUNT = 2, DAY = 3;
/** @type {Record<string, Kind>} The kinds that typed arrays hold. */
const KIND_IN = {
  Int8Array: 'i8', Int16Array: 'i16', Int32Array: 'i32', BigInt64Array: 'i64',
  Uint8Array: 'u8', Uint16Array: 'u16', Uint32Array: 'u32', BigUint64Array: 'u64',
};
const IN_BIGINTS = ['BigInt64Array', 'BigUint64Array'];
const OF_NUMBERS = Object.keys(KIND_IN).filter((it) => !IN_BIGINTS.includes(it));
const IN_NUMBERS = ['Float64Array', ...OF_NUMBERS];
const READ_NUMBERS = 'chinese_wide_numbers_read_column';
const READ_AMOUNTS = 'chinese_amounts_read_column', FIGURES = INPUTS.indexOf('figures');
// Decoding UTF-16 is faster than decoding UTF-8.
const unitsOfTexts = new Uint16Array(ROOM / 3);
const utf16 = new TextDecoder('utf-16le', { ignoreBOM: true });
const TAG = Symbol.toStringTag;
let rowsLent = viewsOf(new ArrayBuffer(BYTES + ROOM));

/** @param {ArrayBuffer} buffer */
function viewsOf(buffer) {
  return {
    values: new Int32Array(buffer, TEXT, NUMBER * ROWS),
    wholes: new BigInt64Array(buffer, TEXT, NUMBER / 2 * ROWS),
    ends: new Int32Array(buffer, ENDS, 2 * ROWS + 2),
    codes: new Int32Array(buffer, STATES, ROWS),
    present: new Uint8Array(buffer, PRESENT, ROWS / 8),
    bytes: new Uint8Array(buffer, BYTES, ROOM),
    words: new Int32Array(buffer, BYTES, ROOM / 4),
  };
}

function lendRows() {
  lend(BYTES + ROOM - TEXT);
  if (rowsLent.bytes.buffer !== text.buffer) rowsLent = viewsOf(/** @type {any} */ (text.buffer));
  rowsLent.ends.fill(0, 0, 2);
}

// Says whether the module is given a row.
/** @param {number} row @param {boolean} isGiven */
function mark(row, isGiven) {
  const { present } = rowsLent;
  if ((row & 7) === 0) present[row >> 3] = 0;
  if (isGiven) present[row >> 3] |= 1 << (row & 7);
}

// The name of a typed array, such as Int8Array; '' if it is none.
/** @param {any} it @returns {string} */
const arrayName = (it) =>
  ArrayBuffer.isView(it) && !(it instanceof DataView) ? /** @type {any} */ (it)[TAG] : '';

/**
 * The answers for the rows of a column and, if they are wanted, their statuses.
 * @template Row, Answer
 */
class Answers {
  /**
   * @param {ArrayLike<Row | null>} rows
   * @param {{ statuses?: any[], into?: any }} options
   * @param {string[]} arrays The typed arrays that hold the answers.
   * @param {(row: any) => Answer} one Answers one row.
   */
  constructor(rows, { statuses, into = [] }, arrays, one) {
    const name = arrayName(into);
    if (!Array.isArray(rows) && !arrayName(rows)) {
      throw new TypeError(`expected an array, not ${shown(rows)}`);
    }
    if (statuses !== undefined && !Array.isArray(statuses)) {
      throw new TypeError(`statuses must be an array, not ${shown(statuses)}`);
    }
    if (!Array.isArray(into) && !arrays.includes(name)) {
      const names = ['Array', ...arrays].join(', ');
      throw new TypeError(`into must be one of ${names}, not ${shown(into)}`);
    }
    if (name && into.length < rows.length) {
      throw new TypeError(`into has ${into.length} elements for ${rows.length} rows`);
    }
    if (statuses) statuses.length = 0;
    this.rows = rows;
    this.statuses = statuses;
    this.into = into;
    this.isTyped = name !== '';
    this.isOfBigInts = IN_BIGINTS.includes(name);
    /**
     * The answers, or those of one piece of rows if they go into a typed array of Numbers: code that
     * stores into arrays of many types is slow.
     * @type {any[]}
     */
    this.all = this.isTyped && !this.isOfBigInts ? [] : into;
    /** The index of the row whose answer is the first of these. */
    this.first = 0;
    this.one = one;
    /** What a missing or refused row has. */
    this.blank = this.isTyped ? (this.isOfBigInts ? 0n : 0) : null;
    /** @type {number[]} The rows that are not answered yet. */
    this.others = [];
  }

  // A row that the module refused, or was not given.
  /** @param {number} index @param {number} code */
  refuse(index, code) {
    this.all[index - this.first] = this.blank;
    if (this.statuses && code !== NONE) this.statuses[index] = STATUSES[code];
    else this.others.push(index);
  }

  // Ends a piece of rows: answers the others each by itself, which needs the memory of the rows.
  /** @param {number} from @param {number} count */
  settle(from, count) {
    const { others, statuses } = this;
    for (const index of others) this.settleRow(index);
    others.length = 0;
    if (this.isTyped && !this.isOfBigInts) {
      this.into.set(this.all, from);
      this.all = [];
      this.first = from + count;
    }
    if (!statuses) return;
    for (let index = from; index < from + count; index++) statuses[index] ??= 'done';
  }

  /** @param {number} index */
  settleRow(index) {
    const { rows, statuses } = this;
    if (rows[index] === null) {
      if (statuses) statuses[index] = 'none';
      return;
    }
    try {
      this.all[index - this.first] = this.one(rows[index]);
    } catch (error) {
      const { code } = Object.assign(/** @type {any} */ (error), { row: index });
      if (!statuses || !(error instanceof Refusal) || code === 'outOfMemory') throw error;
      statuses[index] = code;
    }
  }
}

/**
 * Prints the rows with a call of the module. `give` writes the values of some rows where the module
 * reads them.
 * @param {Answers<any, string>} answers
 * @param {string} name
 * @param {number[]} codes
 * @param {(from: number, count: number) => void} give
 * @returns {Column<string>}
 */
function printColumn(answers, name, codes, give) {
  const { length } = answers.rows;
  for (let from = 0; from < length;) {
    const count = Math.min(ROWS, length - from), rows = BigInt(count);
    lendRows();
    give(from, count);
    ended(library[name](TEXT_AT, rows, PRESENT_AT, BITS_LONG, 0n, ...codes, ENDS_AT, rows + 1n,
      BYTES_AT, ROOM_LONG, CODES_AT, rows, LENGTH_AT));
    from += takePrinted(answers, from, halves[LENGTH_HALF]);
  }
  return answers.all;
}

/** @param {Answers<any, string>} answers @param {number} from @param {number} done */
function takePrinted(answers, from, done) {
  const { ends, codes } = rowsLent, { all } = answers;
  const characters = charactersOf(ends[2 * done] / 3);
  for (let row = 0, start = 0; row < done; row++) {
    const end = ends[2 * row + 2] / 3;
    if (codes[row] === DONE) all[from + row] = characters.slice(start, end);
    else answers.refuse(from + row, codes[row]);
    start = end;
  }
  answers.settle(from, done);
  return done;
}

// The printed texts, as one string, since decoding each takes longer. Each character has three
// bytes, so that three words have four.
/** @param {number} count How many characters. */
function charactersOf(count) {
  const { words } = rowsLent, units = unitsOfTexts;
  for (let unit = 0, at = 0; unit < count; unit += 4, at += 3) {
    const a = words[at], b = words[at + 1], c = words[at + 2];
    units[unit] = (a & 0xf) << 12 | a >> 2 & 0xfc0 | a >> 16 & 0x3f;
    units[unit + 1] = (a >> 24 & 0xf) << 12 | (b & 0x3f) << 6 | b >> 8 & 0x3f;
    units[unit + 2] = (b >> 16 & 0xf) << 12 | b >> 18 & 0xfc0 | c & 0x3f;
    units[unit + 3] = (c >> 8 & 0xf) << 12 | c >> 10 & 0xfc0 | c >> 24 & 0x3f;
  }
  return utf16.decode(units.subarray(0, count));
}

/**
 * Reads the rows with a call of the module. `take` takes the value of a row as an answer, or returns
 * false if the call for one row refuses it.
 * @param {Answers<any, any>} answers
 * @param {string} name
 * @param {number[]} codes
 * @param {(row: number, all: any[], index: number) => boolean} take
 * @returns {any}
 */
function readColumn(answers, name, codes, take) {
  const { length } = answers.rows, isFigures = name === READ_AMOUNTS && codes[0] === FIGURES;
  for (let from = 0; from < length;) {
    lendRows();
    const count = giveTexts(answers.rows, from, isFigures), rows = BigInt(count);
    ended(library[name](BYTES_AT, ROOM_LONG, ENDS_AT, rows + 1n, PRESENT_AT, BITS_LONG, 0n,
      ...codes, TEXT_AT, rows, CODES_AT, rows));
    takeRead(answers, from, count, take);
    from += count;
  }
  return answers.into;
}

// Numbers of 64 bits go into an array of these as the module has written them.
/**
 * @param {Answers<any, any>} answers
 * @param {number} from
 * @param {number} count
 * @param {(row: number, all: any[], index: number) => boolean} take
 */
function takeRead(answers, from, count, take) {
  const { codes, wholes } = rowsLent, { all, first, isOfBigInts } = answers;
  if (isOfBigInts) answers.into.set(wholes.subarray(0, count), from);
  for (let row = 0; row < count; row++) {
    const code = codes[row], index = from + row;
    const isTaken = code === DONE && (isOfBigInts || take(row, all, index - first));
    if (!isTaken) answers.refuse(index, code === DONE ? NONE : code);
  }
  answers.settle(from, count);
}

// Gives the module the texts of rows, as many as fit, and returns how many.
/** @param {ArrayLike<unknown>} rows @param {number} from @param {boolean} isFigures */
function giveTexts(rows, from, isFigures) {
  const { bytes, ends } = rowsLent, most = Math.min(ROWS, rows.length - from), strings = [];
  let all = '';
  while (strings.length < most) {
    const row = strings.length, given = givenText(rows[from + row], isFigures);
    const string = given ?? '';
    if (3 * (all.length + string.length) > ROOM) break;
    mark(row, given !== null);
    strings.push(string);
    all += string;
    ends[2 * row + 2] = 3 * all.length;
    ends[2 * row + 3] = 0;
  }
  if (isFigures || encoded(all, bytes) !== 3 * all.length) giveEach(strings);
  return strings.length;
}

// The text of a row, or null if the module is not given it.
/** @param {unknown} row @param {boolean} isFigures */
function givenText(row, isFigures) {
  const isWhole = isFigures && (typeof row === 'bigint' || Number.isSafeInteger(row));
  const string = typeof row === 'string' ? row : isWhole ? String(row) : null;
  return string !== null && 3 * string.length <= ROOM ? string : null;
}

// Gives the module texts that have characters of other than three bytes.
/** @param {string[]} strings */
function giveEach(strings) {
  const { bytes, ends } = rowsLent;
  let at = 0;
  for (const [row, string] of strings.entries()) {
    at = string.length > FEW
      ? at + encoded(string, bytes.subarray(at)) : written(string, bytes, at);
    ends[2 * row + 2] = at;
  }
}

// Gives the module whole numbers, as numbers or as amounts.
/**
 * @param {ArrayLike<any>} rows @param {number} from @param {number} count
 * @param {number} size In halves. @param {boolean} isSigned
 */
function giveWholes(rows, from, count, size, isSigned) {
  const isUnsigned = arrayName(rows) === 'BigUint64Array';
  if (isUnsigned || arrayName(rows) === 'BigInt64Array') {
    const { buffer, byteOffset, length } = /** @type {BigInt64Array} */ (rows);
    const source = new Int32Array(buffer, byteOffset, 2 * length);
    for (let row = 0, at = 2 * from; row < count; row++, at += 2) {
      const high = source[at + 1], sign = isUnsigned ? 0 : high >> 31;
      mark(row, putWhole(row * size, size, source[at], high, sign) && (sign === 0 || isSigned));
    }
    return;
  }
  for (let row = 0; row < count; row++) {
    const number = rows[from + row], at = row * size;
    let isGiven = false;
    if (typeof number === 'number' && (number | 0) === number) {
      isGiven = putWhole(at, size, number, number >> 31, number >> 31);
    } else if (Number.isSafeInteger(number)) {
      isGiven = putWhole(at, size, number, Math.floor(number / 2 ** 32), number < 0 ? -1 : 0);
    } else if (typeof number === 'bigint') {
      whole[0] = number;
      const [low, high] = halvesOfWhole;
      isGiven = whole[0] === number ? putWhole(at, size, low, high, high >> 31)
        : size === NUMBER && putLong(row, number, isSigned);
    }
    mark(row, isGiven && (isSigned || number >= 0));
  }
}

// Writes a number of 64 bits with its sign, and returns whether it fits the size.
/**
 * @param {number} at @param {number} size
 * @param {number} low @param {number} high @param {number} sign
 */
function putWhole(at, size, low, high, sign) {
  const { values } = rowsLent;
  values[at] = low;
  values[at + 1] = high;
  if (size === AMOUNT) return high >> 31 === sign;
  values[at + 2] = values[at + 3] = sign;
  return true;
}

/** @param {number} row @param {bigint} number @param {boolean} isSigned */
function putLong(row, number, isSigned) {
  const { wholes } = rowsLent;
  wholes[2 * row] = number;
  wholes[2 * row + 1] = number >> 64n;
  return (isSigned ? BigInt.asIntN : BigInt.asUintN)(128, number) === number;
}

/** @param {ArrayLike<any>} rows @param {number} from @param {number} count */
function giveDates(rows, from, count) {
  const { values } = rowsLent;
  for (let row = 0, at = 0; row < count; row++, at += DAY) {
    const { year, month, day } = /** @type {BillDate} */ ({ ...rows[from + row] });
    values[at] = year;
    values[at + 1] = month;
    values[at + 2] = day;
    mark(row, year >>> 0 === year && month >>> 0 === month && day >>> 0 === day);
  }
}

// Takes a number as an answer if it is a safe integer.
/** @param {number} low @param {number} high @param {any[]} all @param {number} index */
function takeSafe(low, high, all, index) {
  const number = high * 2 ** 32 + (low >>> 0);
  all[index] = number;
  return Number.isSafeInteger(number);
}

// Whether the upper 64 bits of a number are those of its lower 64 bits as a signed number.
/** @param {number} row @param {boolean} isSigned */
function isShort(row, isSigned) {
  const { values } = rowsLent, at = NUMBER * row, sign = values[at + 1] >> 31;
  return values[at + 2] === sign && values[at + 3] === sign && (sign === 0 || isSigned);
}

/** @param {number} row @param {boolean} isSigned */
function bigIntAt(row, isSigned) {
  const { wholes } = rowsLent, low = wholes[2 * row];
  if (isShort(row, isSigned)) return low;
  const number = (wholes[2 * row + 1] << 64n) | BigInt.asUintN(64, low);
  return isSigned ? number : BigInt.asUintN(128, number);
}

/**
 * Writes the numbers of a column, each as `toChinese` does, in less time than a loop:
 * `toChineseColumn([120, null])` is ['一百二十', null].
 *
 * The column is an array of BigInts, safe integers and null, for a missing row, or a typed array.
 * The options are those of `toChinese`, and `statuses`. The first refused row throws the error of
 * `toChinese`, with the row's index as `row`. If `statuses` is an array, a refused row is null
 * instead, and the array is filled with the status of each row: 'done', 'none' for a missing row,
 * or the error's code. Throws a TypeError if the column is not an array, a row is of another type,
 * or an option or its value is unknown.
 *
 * @param {WholeColumn} numbers
 * @param {PrintOptions & ColumnOptions} options
 * @returns {Column<string>}
 */
export function toChineseColumn(numbers, options = NO_OPTIONS) {
  refuseOthers(options, (it) => it === 'statuses' || HAS.printing(it));
  const { statuses, ...rest } = options, kind = codeOf(KIND, rest.kind);
  const codes = [kind, codeOf(WAY, rest.way), scriptOf(rest), codeOf(CASE, rest.case)];
  const answers = new Answers(numbers, { statuses }, [], (row) => toChinese(row, rest));
  return printColumn(answers, 'chinese_wide_numbers_print_column', codes,
    (from, count) => giveWholes(numbers, from, count, NUMBER, kind >= FIRST_SIGNED));
}

/**
 * Writes the amounts of a column, in fen, each as `amountToChinese` does. The column and `statuses`
 * are as for `toChineseColumn`.
 *
 * @param {WholeColumn} fen
 * @param {AmountOptions & ColumnOptions} options
 * @returns {Column<string>}
 */
export function amountToChineseColumn(fen, options = NO_OPTIONS) {
  refuseOthers(options, (it) => it === 'statuses' || HAS.amounts(it));
  return capitalsColumn(fen, options, false, amountToChinese);
}

/**
 * Writes the amounts of a column, in fen, each as `signedAmountToChinese` does:
 * `signedAmountToChineseColumn([1500, -1500])` is ['壹拾伍元整', '负壹拾伍元整']. The column and `statuses`
 * are as for `toChineseColumn`.
 *
 * @param {WholeColumn} fen
 * @param {SignedAmountOptions & ColumnOptions} options
 * @returns {Column<string>}
 */
export function signedAmountToChineseColumn(fen, options = NO_OPTIONS) {
  refuseOthers(options, (it) => it === 'statuses' || HAS.signedAmounts(it));
  return capitalsColumn(fen, options, true, signedAmountToChinese);
}

/**
 * @param {WholeColumn} fen
 * @param {SignedAmountOptions & ColumnOptions} options
 * @param {boolean} isSigned
 * @param {(fen: any, options: SignedAmountOptions) => string} one
 */
function capitalsColumn(fen, { statuses, ...rest }, isSigned, one) {
  const answers = new Answers(fen, { statuses }, [], (row) => one(row, rest));
  return printColumn(answers, 'chinese_amounts_print_column', [scriptOf(rest), formOf(rest)],
    (from, count) => giveWholes(fen, from, count, AMOUNT, isSigned));
}

/**
 * Writes the dates of a column, each as `dateToChinese` does. Null is a missing row. The options
 * are those of `dateToChinese`, and `statuses`, as for `toChineseColumn`.
 *
 * @param {ReadonlyArray<BillDate | null>} dates
 * @param {ScriptOptions & ColumnOptions} options
 * @returns {Column<string>}
 */
export function dateToChineseColumn(dates, options = NO_OPTIONS) {
  refuseOthers(options, (it) => it === 'statuses' || HAS.dates(it));
  const { statuses, ...rest } = options, codes = [scriptOf(rest)];
  const answers = new Answers(dates, { statuses }, [], (row) => dateToChinese(row, rest));
  return printColumn(answers, 'chinese_dates_print_column', codes,
    (from, count) => giveDates(dates, from, count));
}

/**
 * Reads the texts of a column, each as `toNumber` does:
 * `toNumberColumn(['一百二', null])` is [120, null].
 *
 * Null is a missing row. The options are those of `toNumber`, `statuses`, as for `toChineseColumn`,
 * and `into`: an array that the numbers are written into, and that is returned. In a typed array a
 * missing or refused row is 0. An array of whole numbers determines the kind: `Int32Array` means
 * 'i32'; a `Float64Array` holds each number. The first refused row throws what `toNumber` throws,
 * with its index as `row`. Throws a TypeError if the column is not an array, a row is not a string,
 * `into` is too short, is of another type, or does not hold the kind, or an option or its value is
 * unknown.
 *
 * @template {NumberArray | Column<number>} [Into=Column<number>]
 * @param {TextColumn} texts
 * @param {ReadOptions & IntoOptions<Into>} options
 * @returns {Into}
 */
export function toNumberColumn(texts, options = NO_OPTIONS) {
  const [rest, codes] = readingOf(options), isSigned = codes[0] >= FIRST_SIGNED;
  const answers = new Answers(texts, options, IN_NUMBERS, (row) => toNumber(row, rest));
  return readColumn(answers, READ_NUMBERS, codes, (row, all, index) => {
    const { values } = rowsLent, at = NUMBER * row;
    return isShort(row, isSigned) && takeSafe(values[at], values[at + 1], all, index);
  });
}

/**
 * Reads the texts of a column, each as `toBigInt` does: `toBigIntColumn(['一百二', null])` is
 * [120n, null]. The options are those of `toNumberColumn`; `into` is an array, a `BigInt64Array`,
 * which means the kind 'i64', or a `BigUint64Array`, which means 'u64'.
 *
 * @template {BigIntArray | Column<bigint>} [Into=Column<bigint>]
 * @param {TextColumn} texts
 * @param {ReadOptions & IntoOptions<Into>} options
 * @returns {Into}
 */
export function toBigIntColumn(texts, options = NO_OPTIONS) {
  const [rest, codes] = readingOf(options), isSigned = codes[0] >= FIRST_SIGNED;
  const answers = new Answers(texts, options, IN_BIGINTS, (row) => toBigInt(row, rest));
  const name = answers.isOfBigInts ? 'chinese_numbers_read_column' : READ_NUMBERS;
  return readColumn(answers, name, codes, (row, all, index) => {
    all[index] = bigIntAt(row, isSigned);
    return true;
  });
}

// The options for one row, and their codes.
/**
 * @param {ReadOptions & IntoOptions<any>} options
 * @returns {[ReadOptions, number[]]}
 */
function readingOf(options) {
  refuseOthers(options, (it) => HAS.columns(it) || HAS.reading(it));
  const { statuses, into, ...rest } = options, held = KIND_IN[arrayName(into)];
  const { kind = held, way } = rest;
  if (held && kind !== held) throw new TypeError(`into holds ${held}, not ${shown(kind)}`);
  return [{ ...rest, kind }, [codeOf(KIND, kind), codeOf(WAY, way)]];
}

/**
 * Reads the amounts of a column, in fen, each as `chineseToSignedAmount` does:
 * `chineseToSignedAmountColumn(['壹拾伍元整', '负壹拾伍元整'])` is [1500, -1500]. Null is a missing row.
 * The options are `statuses` and `into`, as for `toNumberColumn`; `into` is an array or a
 * `Float64Array`.
 *
 * @template {Float64Array | Column<number>} [Into=Column<number>]
 * @param {TextColumn} texts
 * @param {IntoOptions<Into>} options
 * @returns {Into}
 */
export function chineseToSignedAmountColumn(texts, options = NO_OPTIONS) {
  return safeFenColumn(texts, options, 'signedAmount', chineseToSignedAmount);
}

/**
 * Reads the amounts of a column, as `chineseToSignedAmountColumn` does, as BigInts; `into` is an
 * array or a `BigInt64Array`.
 *
 * @template {BigInt64Array | Column<bigint>} [Into=Column<bigint>]
 * @param {TextColumn} texts
 * @param {IntoOptions<Into>} options
 * @returns {Into}
 */
export function chineseToSignedAmountBigIntColumn(texts, options = NO_OPTIONS) {
  return fenColumn(texts, options, 'signedAmount', chineseToSignedAmountBigInt);
}

/**
 * Reads the amounts of a column, each as `chineseToSignedAmountAsTyped` does. The options are those
 * of `chineseToSignedAmountColumn`.
 *
 * @template {Float64Array | Column<number>} [Into=Column<number>]
 * @param {TextColumn} texts
 * @param {IntoOptions<Into>} options
 * @returns {Into}
 */
export function chineseToSignedAmountAsTypedColumn(texts, options = NO_OPTIONS) {
  return safeFenColumn(texts, options, 'typedSignedAmount', chineseToSignedAmountAsTyped);
}

/**
 * Reads the amounts of a column, as `chineseToSignedAmountAsTypedColumn` does, as BigInts; `into`
 * is an array or a `BigInt64Array`.
 *
 * @template {BigInt64Array | Column<bigint>} [Into=Column<bigint>]
 * @param {TextColumn} texts
 * @param {IntoOptions<Into>} options
 * @returns {Into}
 */
export function chineseToSignedAmountAsTypedBigIntColumn(texts, options = NO_OPTIONS) {
  return fenColumn(texts, options, 'typedSignedAmount', chineseToSignedAmountAsTypedBigInt);
}

/**
 * Converts the yuan of a column to fen, each as `yuanToFen` does:
 * `yuanToFenColumn(['1,409.50', 15])` is [140950, 1500]. Null is a missing row. The options are
 * those of `chineseToSignedAmountColumn`.
 *
 * @template {Float64Array | Column<number>} [Into=Column<number>]
 * @param {ReadonlyArray<string | bigint | number | null>} yuan
 * @param {IntoOptions<Into>} options
 * @returns {Into}
 */
export function yuanToFenColumn(yuan, options = NO_OPTIONS) {
  return safeFenColumn(yuan, options, 'figures', yuanToFen);
}

/**
 * Converts the yuan of a column to fen, as `yuanToFenColumn` does, and returns BigInts; `into` is
 * an array or a `BigInt64Array`.
 *
 * @template {BigInt64Array | Column<bigint>} [Into=Column<bigint>]
 * @param {ReadonlyArray<string | bigint | number | null>} yuan
 * @param {IntoOptions<Into>} options
 * @returns {Into}
 */
export function yuanToFenBigIntColumn(yuan, options = NO_OPTIONS) {
  return fenColumn(yuan, options, 'figures', yuanToFenBigInt);
}

/**
 * @param {ArrayLike<any>} rows
 * @param {IntoOptions<any>} options
 * @param {Input} input
 * @param {(row: any) => bigint} one
 */
function fenColumn(rows, options, input, one) {
  refuseOthers(options, HAS.columns);
  const answers = new Answers(rows, options, ['BigInt64Array'], one);
  return readColumn(answers, READ_AMOUNTS, [INPUTS.indexOf(input)], (row, all, index) => {
    all[index] = rowsLent.wholes[row];
    return true;
  });
}

/**
 * @param {ArrayLike<any>} rows
 * @param {IntoOptions<any>} options
 * @param {Input} input
 * @param {(row: any) => number} one
 */
function safeFenColumn(rows, options, input, one) {
  refuseOthers(options, HAS.columns);
  const answers = new Answers(rows, options, ['Float64Array'], one);
  return readColumn(answers, READ_AMOUNTS, [INPUTS.indexOf(input)], (row, all, index) => {
    const { values } = rowsLent, at = AMOUNT * row;
    return takeSafe(values[at], values[at + 1], all, index);
  });
}

/**
 * Reads the dates of a column, each as `chineseToDate` does. Null is a missing row; the options are
 * `statuses`, as for `toChineseColumn`, and `into`, an array.
 *
 * @param {TextColumn} texts
 * @param {IntoOptions<Column<BillDate>>} options
 * @returns {Column<BillDate>}
 */
export function chineseToDateColumn(texts, options = NO_OPTIONS) {
  refuseOthers(options, HAS.columns);
  const answers = new Answers(texts, options, [], chineseToDate);
  return readColumn(answers, 'chinese_dates_read_column', [], (row, all, index) => {
    const { values } = rowsLent, at = DAY * row;
    all[index] = { year: values[at], month: values[at + 1], day: values[at + 2] };
    return true;
  });
}

// The numbers of a quantity are of these kinds.
const NUMERATOR = KINDS.indexOf('i128'), DENOMINATOR = KINDS.indexOf('u128');
// For each form with decimals, its denominators, and the denominator without decimals.
const WITH_DECIMALS = {
  decimal: { denominators: /^10+$/, least: 1n },
  percent: { denominators: /^100+$/, least: 100n },
};

/**
 * An exact quantity, as it is written and not reduced: 12.5% is 125/1000 with the form 'percent'.
 *
 * The numerator may be negative, and the denominator is above 0; both have at most 128 bits. A
 * quantity is immutable. `toQuantity` reads one from a text, such as '-3.50'; `Quantity.decimal`,
 * `Quantity.percent` and `Quantity.fraction` make one from numbers. These and the constructor throw
 * a NumeralError if the denominator is 0 or a number has more bits, and a TypeError if a number is
 * neither a BigInt nor a safe integer, or the form is unknown.
 */
export class Quantity {
  /**
   * @param {bigint | number} numerator
   * @param {bigint | number} denominator
   * @param {QuantityForm} form
   */
  constructor(numerator, denominator, form) {
    /** The number above the line. */
    this.numerator = heldBy(NUMERATOR, numerator);
    /** The number below the line. */
    this.denominator = heldBy(DENOMINATOR, denominator);
    /** How it is written. */
    this.form = QUANTITY_FORMS[codeAmong(QUANTITY_FORM, form)];
    if (this.denominator === 0n) throw new NumeralError('notAQuantity');
    Object.freeze(this);
  }

  /**
   * Makes a number with 0 to 38 decimals: `Quantity.decimal(314, 2)` is 3.14, and
   * `Quantity.decimal(3)` is 3, with the form 'whole'.
   *
   * @param {bigint | number} numerator
   * @param {number} decimals
   */
  static decimal(numerator, decimals = 0) {
    return new Quantity(numerator, tenTo(decimals), decimals === 0 ? 'whole' : 'decimal');
  }

  /**
   * Makes a percentage with 0 to 36 decimals: `Quantity.percent(125, 1)` is 12.5%, and
   * `Quantity.percent(5)` is 5%.
   *
   * @param {bigint | number} numerator
   * @param {number} decimals
   */
  static percent(numerator, decimals = 0) {
    return new Quantity(numerator, 100n * tenTo(decimals), 'percent');
  }

  /**
   * Makes a fraction: `Quantity.fraction(1, 3)` is 三分之一.
   *
   * @param {bigint | number} numerator
   * @param {bigint | number} denominator
   */
  static fraction(numerator, denominator) {
    return new Quantity(numerator, denominator, 'fraction');
  }

  /**
   * Whether another quantity has the same numerator, denominator and form.
   *
   * @param {Quantity} other
   */
  equals(other) {
    return this.numerator === other.numerator && this.denominator === other.denominator
      && this.form === other.form;
  }

  /**
   * The value as a BigInt, or null if it is not a whole number: 35000n for 3.5万, null for 3.5.
   */
  toWhole() {
    const { numerator, denominator } = this;
    return numerator % denominator === 0n ? numerator / denominator : null;
  }

  /**
   * The same quantity without the zeros at the end of its decimals: 3.10 becomes 3.1, and 3.5万
   * becomes 35000, with the form 'whole'. A fraction stays the same, and so does a quantity whose
   * denominator does not match its form.
   */
  trimmed() {
    let { numerator, denominator, form } = this;
    if (form === 'whole' || form === 'fraction') return this;
    const { denominators, least } = WITH_DECIMALS[form];
    if (!denominators.test(String(denominator))) return this;
    while (denominator > least && numerator % 10n === 0n) {
      numerator /= 10n;
      denominator /= 10n;
    }
    return new Quantity(numerator, denominator, denominator === 1n ? 'whole' : form);
  }

  /**
   * Writes the quantity: 3.14 as 三点一四, 12.5% as 百分之十二点五, 1/3 as 三分之一. `toQuantity` reads
   * the text by the same method as the same numerator and denominator. A quantity whose denominator
   * does not match its form is written as a fraction.
   *
   * The defaults are the method 'any', the script 'simplified' and the case 'lower'. 'any' chooses
   * the method by the greatest number that is spelled. Throws a NumeralError if 'low' cannot write
   * one of its numbers, and a TypeError if an option or its value is unknown.
   *
   * @param {QuantityOptions} options
   * @returns {string}
   */
  toChinese(options = NO_OPTIONS) {
    refuseOthers(options, HAS.writing);
    const method = methodOf(options), script = scriptOf(options);
    const letterCase = codeOf(CASE, options.case);
    lendWith(this);
    const status = ended(library.chinese_quantity_print(READING_AT, method, script, letterCase,
      TEXT_AT, MOST_QUANTITY_BYTES, LENGTH_AT));
    if (status !== DONE) throw new NumeralError(STATUSES[status]);
    return decoded(0);
  }

  /**
   * Writes the quantity in figures, without zeros at the end of its decimals: '35000' for 3.5万,
   * '-3.5', '12.5%', '1/3', and '50%' for 百分之五十.
   *
   * @returns {string}
   */
  toFigures() {
    lendWith(this);
    ended(library.chinese_quantity_figures(READING_AT, TEXT_AT, MOST_FIGURES_BYTES, LENGTH_AT));
    return decoded(0);
  }
}

/** @param {number} kind @param {bigint | number} number */
function heldBy(kind, number) {
  const whole = wholeOf(number);
  highOf(whole, kind);
  return whole;
}

// For too many decimals, a number that is too large for a denominator.
/** @param {number} decimals */
function tenTo(decimals) {
  if (!Number.isInteger(decimals) || decimals < 0) {
    throw new TypeError(
      `the number of decimals must be a whole Number from 0 up, not ${shown(decimals)}`);
  }
  return 10n ** BigInt(Math.min(decimals, 39));
}

/** @param {MethodOptions} options */
const methodOf = (options) => FIRST_METHOD + codeOf(METHOD, options.method);

// Writes a quantity where the module reads it.
/** @param {Quantity} quantity */
function lendWith({ numerator, denominator, form }) {
  lend(Number(MOST_QUANTITY_BYTES));
  words.set([numerator, numerator >> 64n, denominator, denominator >> 64n]);
  halves[FORM_HALF] = QUANTITY_FORMS.indexOf(form);
}

// The text that was written from byte `start` on.
/** @param {number} start */
const decoded = (start) =>
  decoder.decode(text.subarray(start, start + Number(words[LENGTH_WORD])));

/**
 * Reads an exact quantity, as it is written: '3.5万' is the decimal 350000/10, '12.5%' is 125/1000,
 * and '三分之一' is 1/3.
 *
 * A quantity is a whole number, a decimal, a percentage or a fraction, in figures, in numerals or
 * in both, with or without one leading sign; white space is ignored. The method is 'any' by
 * default, which means 'tenThousand' here. Throws a NumeralError if the text is not a quantity or
 * its numbers are too large, and a TypeError if it is not a string, or an option or its value is
 * unknown.
 *
 * @param {string} string
 * @param {MethodOptions} options
 * @returns {Quantity}
 */
export function toQuantity(string, options = NO_OPTIONS) {
  refuseOthers(options, HAS.quantities);
  const method = methodOf(options);
  hand(string);
  const status = ended(library.chinese_quantity_read(
    TEXT_AT, words[LENGTH_WORD], method, READING_AT));
  if (status !== DONE) {
    const error = new NumeralError(STATUSES[status], undefined, placeOf(status, 5));
    throw about(error, 'chinese_quantity_message', string, [method]);
  }
  return quantityAt(0);
}

// A quantity that the module has written.
/** @param {number} word Where it begins. */
function quantityAt(word) {
  const form = QUANTITY_FORMS[halves[2 * word + FORM_HALF]];
  return new Quantity(wholeNumber(NUMERATOR, word), wholeNumber(DENOMINATOR, word + 2), form);
}

/** The place of a number or an expression in a text, and what is reported about it. */
class Span {
  /**
   * @param {number} start
   * @param {string} text
   * @param {number} flags
   */
  constructor(start, text, flags) {
    /**
     * Where it starts in the string, in UTF-16 code units, as setSelectionRange and slice take it.
     */
    this.start = start;
    /** Where it ends, likewise. */
    this.end = start + text.length;
    /** The text of the number or expression itself. */
    this.text = text;
    /** Whether it is plain digits: 二零二五 is, 十 is not. */
    this.isPlain = (flags & PLAIN_DIGITS) !== 0;
    /** Whether it continues on neither side: 二十三 in 第二十三回 stands alone, the 4 in A4 does not. */
    this.standsAlone = (flags & STANDS_ALONE) !== 0;
    /** Whether it is approximate, such as 十 in 十几, and 五六. */
    this.isAbout = (flags & ABOUT) !== 0;
    /** Whether it is one character and no figure, such as 一 in 一般. */
    this.isOneCharacter = (flags & ONE_CHARACTER) !== 0;
  }
}

/** A number in a text, as findNumbers yields it. */
export class Found extends Span {
  /**
   * Reads the number as toNumber does: plain digits as such, anything else by the given way, where
   * 'any' means 'tenThousand'.
   *
   * Throws what toNumber throws; a place counts within the number's own text.
   *
   * @param {ReadOptions} options
   * @returns {number}
   */
  number(options = NO_OPTIONS) {
    return safeNumber(readNumeral(this.text, options, this.isPlain, TEN_THOUSAND));
  }

  /**
   * Reads the number as a BigInt, as toBigInt does.
   *
   * @param {ReadOptions} options
   * @returns {bigint}
   */
  bigInt(options = NO_OPTIONS) {
    return wholeNumber(readNumeral(this.text, options, this.isPlain, TEN_THOUSAND));
  }

  /**
   * The number, or null if its text is refused, such as 百 in 百分之五十, or the number is not a safe
   * integer. Otherwise throws what `number` throws.
   *
   * @param {ReadOptions} options
   * @returns {number | null}
   */
  value(options = NO_OPTIONS) {
    return unlessRefused(() => this.number(options));
  }
}

/** An expression in a text, as findQuantities yields it. */
export class FoundQuantity extends Span {
  /**
   * @param {number} start
   * @param {string} text
   * @param {number} flags
   */
  constructor(start, text, flags) {
    super(start, text, flags);
    /**
     * Why a reader may understand it as something other than its quantity, or null: 'digits' for
     * 五一.
     * @type {Doubt | null}
     */
    this.doubt = DOUBTS[(flags >> DOUBT) - 1] ?? null;
  }

  /**
   * Reads the expression as toQuantity does.
   *
   * Throws what toQuantity throws; a place counts within the expression's own text.
   *
   * @param {MethodOptions} options
   * @returns {Quantity}
   */
  quantity(options = NO_OPTIONS) {
    return toQuantity(this.text, options);
  }

  /**
   * The quantity, or null if its text is refused, such as 五六十. Otherwise throws what `quantity`
   * throws.
   *
   * @param {MethodOptions} options
   * @returns {Quantity | null}
   */
  value(options = NO_OPTIONS) {
    return unlessRefused(() => this.quantity(options));
  }
}

/**
 * A phrase in a text, as findPhrases yields it: a date, a time, a range and so on.
 *
 * By `kind`, `value` is
 * - 'date': { year, month, day }, without what the text does not give. A year of two digits is as
 *   it is written: 26 for 二六年;
 * - 'years', 'months', 'days': the first and the last;
 * - 'time': { hour, minute, second, hourOfDay }. The hour is as it is written: 3 for 下午三点半.
 *   `hourOfDay` is the hour of 24, 15; it is 24 at the end of a day, and missing if it is not
 *   known, as for 三点半;
 * - 'duration': { hours, minutes, seconds };
 * - 'half', 'length': a Quantity, 1.5 for 一个半小时 and 1.75 for 一米七五;
 * - 'score': the two numbers;
 * - 'range': the two Quantities, 30000 and 50000 for 三到五万;
 * - 'money': a Quantity of yuan, 3.50 for 三块五; null if it is no whole number of fen below 10^18.
 *
 * @template {PhraseKind} Name
 */
export class Phrase {
  /**
   * @param {number} start
   * @param {string} text
   * @param {Name} kind
   * @param {PhraseState} state
   * @param {PhraseValues[Name] | null} value
   */
  constructor(start, text, kind, state, value) {
    /**
     * Where it starts in the string, in UTF-16 code units, as setSelectionRange and slice take it.
     */
    this.start = start;
    /** Where it ends, likewise. */
    this.end = start + text.length;
    /** The text of the phrase itself. */
    this.text = text;
    /** What it is, one of PHRASE_KINDS. */
    this.kind = kind;
    /**
     * What is known of it: 'refused' if it has no value, as 二月三十日, and 'doubtful' if it may mean
     * something else, as 1000年 of 1000年前.
     */
    this.state = state;
    /** What it means, or null if it is refused. */
    this.value = value;
  }
}

/**
 * @template Value
 * @param {() => Value} call
 */
function unlessRefused(call) {
  try {
    return call();
  } catch (error) {
    if (!(error instanceof NumeralError) || error.code === 'outOfMemory') throw error;
    return null;
  }
}

/**
 * Finds the numbers of a text, and yields them in order: in '第二十三回', 二十三 from 1 to 4.
 *
 * A number is a longest run of characters that can be in one; its `value()` says whether it can be
 * read. The characters are digits, units up to `greatest` ('zhao', which is 兆, by default), and
 * with `upper: true` those of cheques. Sentences are not understood: 一起 contains a 1. Throws a
 * TypeError if the text is not a string, or an option or its value is unknown. The call itself
 * searches the whole text.
 *
 * @param {string} string
 * @param {Wanted} options
 * @returns {Generator<Found, void, undefined>}
 */
export function findNumbers(string, options = NO_OPTIONS) {
  refuseOthers(options, HAS.searches);
  return foundIn(string, searched(string, options, NUMBERS), Found);
}

/**
 * Finds the expressions of a text, as `findNumbers` finds its numbers: numbers with their sign,
 * figures, point and units, percentages and fractions. In '占12.5%，共3.5万' these are 12.5% and 3.5万.
 *
 * @param {string} string
 * @param {Wanted} options
 * @returns {Generator<FoundQuantity, void, undefined>}
 */
export function findQuantities(string, options = NO_OPTIONS) {
  refuseOthers(options, HAS.searches);
  return expressionsOf(string, options);
}

/** @param {string} string @param {Wanted} options */
const expressionsOf = (string, options) =>
  foundIn(string, searched(string, options, EXPRESSIONS), FoundQuantity);

/**
 * @template {Span} Item
 * @param {string} string
 * @param {{ start: number, end: number, flags: number }[]} spans
 * @param {new (start: number, text: string, flags: number) => Item} Item
 * @returns {Generator<Item, void, undefined>}
 */
function* foundIn(string, spans, Item) {
  for (const { start, end, flags } of spans) {
    yield new Item(start, string.slice(start, end), flags);
  }
}

/**
 * Finds the phrases of a text, and its expressions that are in none: in '一月五日下午三点半，二十人' the
 * date 一月五日, the time 下午三点半 and the expression 二十.
 *
 * Phrases are dates, times of day, durations, ranges, scores, halves, lengths and sums of money.
 * Yields a `Phrase` for each of them, with its `kind` and `value`, and for each of these
 * expressions the same as `findQuantities`. Throws a TypeError as that does.
 *
 * @param {string} string
 * @param {Wanted} options
 * @returns {Generator<AnyPhrase | FoundQuantity, void, undefined>}
 */
export function findPhrases(string, options = NO_OPTIONS) {
  refuseOthers(options, HAS.searches);
  return phrasesIn(string, searched(string, options, PHRASES));
}

/** @param {string} string @param {ReturnType<typeof phraseAt>[]} items */
function* phrasesIn(string, items) {
  for (const { start, end, flags, kind, state, value } of items) {
    const text = string.slice(start, end);
    yield kind === 'expression' ? new FoundQuantity(start, text, flags)
      : /** @type {AnyPhrase} */ (new Phrase(start, text, kind, state, value));
  }
}

// The searches: the call of the module, how many halves it writes for each item, and what reads
// these.
const NUMBERS = { name: 'chinese_number_find_utf8', size: 6, itemAt: spanAt };
const EXPRESSIONS = { ...NUMBERS, name: 'chinese_quantity_find_utf8' };
const PHRASES = { name: 'chinese_phrase_find_utf8', size: 14, itemAt: phraseAt };
const UNSPOKEN = { ...NUMBERS, name: 'chinese_speech_left', works: true };

// Searches the whole text at once, since another call would overwrite the text that is lent.
/**
 * @template Item
 * @param {string} string
 * @param {Wanted} options
 * @param {{ name: string, size: number, itemAt: (...where: number[]) => Item, works?: boolean }}
 *   search Whether the call works in a buffer, which is after the text and has as many bytes.
 */
function searched(string, options, { name, size, itemAt, works = false }) {
  const upper = flagOf(options.upper, 'upper'), greatest = codeOf(UNIT, options.greatest);
  refuseNoString(string);
  hand(string, works ? 12 * string.length + WORK_BYTES : 0);
  const length = words[LENGTH_WORD], items = [], work = works ? [TEXT_AT + length, length] : [];
  const [at, most] = works ? spansAfter(Number(length)) : [SPANS, MOST_SPANS];
  const first = (at - READING) / 4;
  let count = most, from = 0, position = 0;
  while (count === most) {
    isInside = true;
    ended(library[name](TEXT_AT, length, BigInt(from), upper, greatest, ...work, BigInt(at),
      BigInt(most), LENGTH_AT));
    count = halves[LENGTH_HALF];
    for (let half = first; half < first + size * count; half += size) {
      const begin = halves[half] >>> 0, start = position + unitsBetween(from, begin);
      from = halves[half + 2] >>> 0;
      position = start + unitsBetween(begin, from);
      items.push(itemAt(half, start, position));
    }
  }
  return items;
}

// A call that works in a buffer goes through the whole text each time. So it finds many spans at once,
// for which there is room after the buffer: at most 9 bytes for each code unit of the text.
/** @param {number} length @returns {[number, number]} Where they are, and how many. */
const spansAfter = (length) =>
  [Math.ceil((TEXT + 2 * length) / 8) * 8, FEW_SPANS + Math.floor(length / 8)];

/** @param {number} half Where it begins. @param {number} start @param {number} end */
function spanAt(half, start, end) {
  return { start, end, flags: halves[half + 4] };
}

/** @param {number} half Where it begins. @param {number} start @param {number} end */
function phraseAt(half, start, end) {
  const [kind, state, flags, ...numbers] = halves.subarray(half + 6, half + 13);
  const found = { start, end, flags, kind: PHRASE_KINDS[kind], state: PHRASE_STATES[state] };
  return { ...found, value: found.state === 'refused' ? null : VALUES[found.kind](numbers, half) };
}

// The value of a phrase of each kind, given its numbers and where it begins in the halves.
/** @type {Record<typeof PHRASE_KINDS[number], (numbers: number[], half: number) => any>} */
const VALUES = {
  expression: () => null,
  date: ([year, month, day, given]) => ({
    ...(given & YEAR_GIVEN ? { year } : {}),
    ...(given & MONTH_GIVEN ? { month } : {}),
    ...(given & DAY_GIVEN ? { day } : {}),
  }),
  years: firstTwo,
  months: firstTwo,
  days: firstTwo,
  time: ([hour, minute, second, hourOfDay]) =>
    ({ hour, minute, second, ...(hourOfDay === NO_HOUR ? {} : { hourOfDay }) }),
  duration: ([hours, minutes, seconds]) => ({ hours, minutes, seconds }),
  half: ([number]) => Quantity.decimal(10 * number + 5, 1),
  length: ([number, decimals, count]) => Quantity.decimal(number * 10 ** count + decimals, count),
  score: firstTwo,
  range: (_, half) => rangeAt(half),
  money: ([low, high, isKnown]) =>
    isKnown ? Quantity.decimal((BigInt(high >>> 0) << 32n) + BigInt(low >>> 0), 2) : null,
};

/** @param {number[]} numbers */
function firstTwo([first, second]) {
  return [first, second];
}

// The ends of a range, which are before and after its link, in the text that is lent.
/** @param {number} half Where the range begins. */
function rangeAt(half) {
  const [start, , end, , split] = halves.subarray(half, half + 5).map((it) => it >>> 0);
  const link = start + split, second = link + bytesOf(text[link]);
  isInside = true;
  ended(library.chinese_range_read(BigInt(TEXT + start), BigInt(split), BigInt(TEXT + second),
    BigInt(end - second), READING_AT, HIGH_AT));
  return [quantityAt(0), quantityAt(HIGH_WORD)];
}

// How many UTF-16 code units the characters between two bytes of the text have. A character of four
// bytes is a surrogate pair.
/** @param {number} start @param {number} end */
function unitsBetween(start, end) {
  const bytes = text;
  let units = 0;
  for (let at = start; at < end; units++) {
    const first = bytes[at];
    at += bytesOf(first);
    if (first >= 0xf0) units++;
  }
  return units;
}

// How many bytes a character has, given the first of them.
/** @param {number} first */
function bytesOf(first) {
  return first < 0x80 ? 1 : first < 0xe0 ? 2 : first < 0xf0 ? 3 : 4;
}

/**
 * Replaces the expressions of a text: with `(found) => found.quantity().toChinese()` '占12.5%'
 * becomes '占百分之十二点五'.
 *
 * Calls a function for each expression that `findQuantities` finds and `toQuantity` reads by the
 * method. The function returns the text that replaces it, or undefined to keep it. Expressions that
 * are approximate, one Chinese character or doubtful stay, unless `about`, `oneCharacter` or
 * `doubtful` is true; those with the doubt 'part' always stay. Throws what the function throws, a
 * TypeError if it returns anything else, and what `findQuantities` throws.
 *
 * @param {string} string
 * @param {(found: FoundQuantity) => string | undefined} replacement
 * @param {ReplaceOptions} options
 * @returns {string}
 */
export function replaceQuantities(string, replacement, options = NO_OPTIONS) {
  refuseOthers(options, HAS.replacing);
  if (typeof replacement !== 'function') {
    throw new TypeError(`replacement must be a function, not ${shown(replacement)}`);
  }
  const { method } = options, included = includedOf(options);
  methodOf(options);
  let replaced = '', at = 0;
  for (const found of expressionsOf(string, options)) {
    if (!isReplaced(found, included) || found.value({ method }) === null) continue;
    const other = replacement(found);
    if (other === undefined) continue;
    if (typeof other !== 'string') {
      throw new TypeError(`replacement must return a string or undefined, not ${shown(other)}`);
    }
    replaced += string.slice(at, found.start) + other;
    at = found.end;
  }
  return replaced + string.slice(at);
}

/** @param {FoundQuantity} found @param {number} included */
const isReplaced = ({ isAbout, isOneCharacter, doubt }, included) =>
  (!isAbout || (included & ABOUT) !== 0) && (!isOneCharacter || (included & ONE_CHARACTER) !== 0)
  && (doubt === null || (doubt !== 'part' && (included & DOUBTFUL) !== 0));

/** @param {Included} options */
const includedOf = ({ about, oneCharacter, doubtful }) => ABOUT * flagOf(about, 'about')
  + ONE_CHARACTER * flagOf(oneCharacter, 'oneCharacter') + DOUBTFUL * flagOf(doubtful, 'doubtful');

/** @param {TextOptions} options */
const styleOf = ({ expanded, canonical, compact, codes }) => EXPANDED * flagOf(expanded, 'expanded')
  + CANONICAL * flagOf(canonical, 'canonical') + COMPACT * flagOf(compact, 'compact')
  + CODES * flagOf(codes, 'codes');

/**
 * Rewrites the numerals of a text in figures, as an editor does: '市值三点五亿元，占百分之十二点五'
 * becomes '市值3.5亿元，占12.5%'.
 *
 * These stay: figures; what `toQuantity` refuses; approximate expressions, single Chinese
 * characters and doubtful expressions, unless `about`, `oneCharacter` or `doubtful` is true;
 * expressions with the doubt 'part'; a part of a name, an address or another number; 千分之五 and
 * 二又五分之三; all of a date, a time, a length, an amount or a range of which one part stays; and the
 * rest of the text. `expanded` writes out 万, 亿 and so on: 三千五百亿 and 3500亿 become
 * 350000000000. `canonical` rewrites figures in ASCII, without commas and leading zeros. Throws a
 * TypeError as `findQuantities` does.
 *
 * @param {string} string
 * @param {FiguresOptions} options
 * @returns {string}
 */
export function quantitiesToFigures(string, options = NO_OPTIONS) {
  refuseOthers(options, HAS.figures);
  return inFigures(string, options, 'chinese_quantities_to_figures');
}

/**
 * Rewrites a text in figures, as an editor does, with its dates, times, ranges and other phrases:
 * '二零二六年一月五日下午三点半，三到五万元' becomes '2026年1月5日下午3点半，3万到5万元'.
 *
 * It rewrites the phrases that `findPhrases` finds, whose words stay, and the other expressions as
 * `quantitiesToFigures` does. These stay too: phrases without a value, as 二月三十日; doubtful phrases,
 * unless `doubtful` is true; and halves after one Chinese character, as 一个半小时, unless
 * `oneCharacter` is true. `compact` writes whole dates, times whose hour of 24 is known, halves,
 * and sums of money with 角 or 分 as short as possible: '2026-01-05 15:30', '1.5小时', '3.5元'. `codes`
 * also writes codes, such as telephone numbers: '打幺幺零' becomes '打110'. Throws a TypeError as
 * `findQuantities` does.
 *
 * @param {string} string
 * @param {TextOptions} options
 * @returns {string}
 */
export function textToFigures(string, options = NO_OPTIONS) {
  refuseOthers(options, HAS.phrases);
  return inFigures(string, options, 'chinese_text_to_figures');
}

/**
 * Rewrites a text as it is spoken: '2026年1月5日15:30，共2.5kg' becomes
 * '二零二六年一月五日十五点三十分，共二点五千克'.
 *
 * Its figures, signs and measures become Chinese characters of the `script`, and large numbers are
 * written by the `method`. Codes, such as telephone numbers, are spoken digit by digit, with `yao: true`
 * with 幺 for 1. The rest stays, and so does what no rule covers, such as 'x86', whose 86
 * `findUnspoken` finds. Throws a TypeError as `findQuantities` does.
 *
 * @param {string} string
 * @param {SpeechOptions} options
 * @returns {string}
 */
export function textToSpeech(string, options = NO_OPTIONS) {
  refuseOthers(options, HAS.speech);
  const codes = [methodOf(options), codeOf(SCRIPT, options.script), YAO * flagOf(options.yao, 'yao')];
  return rewritten(string, 1, (length, room) => library.chinese_text_to_speech(TEXT_AT, length, 0,
    ZHAO, ...codes, TEXT_AT + length, length, TEXT_AT + 2n * length, room, LENGTH_AT));
}

/**
 * Finds the parts with figures that `textToSpeech` leaves as they are, and yields them in order: in
 * '共3人，x86，2026.1.15' these are 86 and 2026.1.15. Not all of them are quantities. Throws a TypeError if the
 * text is not a string.
 *
 * @param {string} string
 * @returns {Generator<FoundQuantity, void, undefined>}
 */
export function findUnspoken(string) {
  return foundIn(string, searched(string, NO_OPTIONS, UNSPOKEN), FoundQuantity);
}

/** @param {string} string @param {TextOptions} options @param {string} name Of the call. */
function inFigures(string, options, name) {
  const upper = flagOf(options.upper, 'upper'), greatest = codeOf(UNIT, options.greatest);
  const method = methodOf(options), bits = includedOf(options) + styleOf(options);
  return rewritten(string, 0, (length, room) => library[name](TEXT_AT, length, upper, greatest, method,
    bits, TEXT_AT + length, room, LENGTH_AT));
}

// The new text of a call, whose buffer is after so many others with as many bytes as the text.
/** @param {string} string @param {number} others @param {(...sizes: bigint[]) => number} call */
function rewritten(string, others, call) {
  refuseNoString(string);
  // It seldom has more bytes than what it replaces. If it does, the call reports how many.
  let room = 3 * string.length + Number(MOST_FIGURES_BYTES), length, status;
  do {
    hand(string, 3 * others * string.length + room);
    length = words[LENGTH_WORD];
    status = ended(call(length, BigInt(room)));
    room = Number(words[LENGTH_WORD]);
  } while (status === NO_ROOM);
  length *= BigInt(1 + others);
  return withHalves(decoded(Number(length)), string);
}

// In the new text U+FFFD replaces each half of a surrogate pair, and may be U+FFFD itself. No
// expression contains one, so they correspond to those of the string, in order.
/** @param {string} anew @param {string} string */
function withHalves(anew, string) {
  if (!anew.includes('\ufffd')) return anew;
  const all = string.match(/\ufffd|\p{Surrogate}/gu) ?? [];
  let at = 0;
  return anew.replace(/\ufffd/g, () => all[at++]);
}

/**
 * Says what may come next in a text that is meant to be an input of INPUTS, for example to offer
 * keys: `inputExpected('壹佰', 'amount').characters` are 元, 零 and so on.
 *
 * `charIndex` and `index` are the length, in characters and in UTF-16 code units, of the longest
 * part of the text, from its start, that begins such an input: all of it, or up to the wrong
 * character. `mayEnd` says whether this part is complete. `characters` may come next, and if
 * `whiteSpace` is true, so may white space. Throws a TypeError if the text is not a string or the
 * input is unknown.
 *
 * @param {string} string
 * @param {Input} input
 * @returns {Expected}
 */
export function inputExpected(string, input) {
  const code = codeAmong(INPUT, input);
  hand(string);
  ended(library.chinese_input_expected(TEXT_AT, words[LENGTH_WORD], code, SPANS_AT));
  const [charIndex, , byteIndex, , mayEnd, whiteSpace, count] = halves.subarray(SPANS_HALF);
  const first = SPANS_HALF + 7, characters = halves.subarray(first, first + count);
  return {
    charIndex,
    index: unitsBetween(0, byteIndex),
    mayEnd: mayEnd === 1,
    whiteSpace: whiteSpace === 1,
    characters: Array.from(characters, (it) => String.fromCodePoint(it)),
  };
}

/**
 * Finds one change of a text after which it goes on past its wrong character:
 * `inputRepair('壹佰贰元整', 'amount')` is
 * { change: 'insert', charIndex: 2, index: 2, character: '零' }.
 *
 * A text that is only unfinished becomes right. There may be another fault further on, and only a
 * person can say that the change is what was meant. `charIndex` and `index` are the place, in
 * characters and in UTF-16 code units; `character` is empty for 'delete'. Returns undefined if the
 * text is right, or if no change is found. Throws a TypeError as `inputExpected` does.
 *
 * @param {string} string
 * @param {Input} input
 * @returns {Repair | undefined}
 */
export function inputRepair(string, input) {
  const code = codeAmong(INPUT, input);
  hand(string);
  ended(library.chinese_input_repair(TEXT_AT, words[LENGTH_WORD], code, READING_AT));
  const [charIndex, byteIndex] = words, [change, character] = halves.subarray(CHANGE_HALF);
  if (change === 0) return undefined;
  return {
    change: CHANGES[change - 1],
    charIndex: Number(charIndex),
    index: unitsBetween(0, Number(byteIndex)),
    character: character ? String.fromCodePoint(character) : '',
  };
}

/**
 * Says why `toBigInt` refuses a text: `explainNumber('一百十')` is 'units', the rule that the text
 * breaks from its wrong character on. Returns undefined if the text is read.
 *
 * The options are those of `toBigInt`. Throws a TypeError if the text is not a string, or an option
 * or its value is unknown.
 *
 * @param {string} string
 * @param {ReadOptions} options
 * @returns {Fault | undefined}
 */
export function explainNumber(string, options = NO_OPTIONS) {
  return faultOf('chinese_number_explain', string, codesOf(options));
}

/**
 * Says why `toQuantity` refuses a text: `explainQuantity('零分之一')` is 'denominator'. Returns
 * undefined if the text is read. The options are those of `toQuantity`. Throws a TypeError as
 * `explainNumber` does.
 *
 * @param {string} string
 * @param {MethodOptions} options
 * @returns {Fault | undefined}
 */
export function explainQuantity(string, options = NO_OPTIONS) {
  return faultOf('chinese_quantity_explain', string, methodCodesOf(options));
}

/** @param {ReadOptions} options */
function codesOf(options) {
  refuseOthers(options, HAS.reading);
  return [codeOf(KIND, options.kind), codeOf(WAY, options.way)];
}

/** @param {MethodOptions} options */
function methodCodesOf(options) {
  refuseOthers(options, HAS.quantities);
  return [methodOf(options)];
}

/** @param {string} name @param {string} string @param {number[]} codes */
function faultOf(name, string, codes) {
  hand(string);
  ended(library[name](TEXT_AT, words[LENGTH_WORD], ...codes, READING_AT));
  return halves[0] === 0 ? undefined : FAULTS[halves[0] - 1];
}

/**
 * Writes a message for the person who typed a text that is meant to be an input of INPUTS, in a
 * language of LANGUAGES: why it is not such an input, with the wrong character, its position, which
 * counts from 1, and the repair, if there is one. `inputMessage('壹佰贰元整', 'amount', 'zh-Hans')` is
 * 第3个字“贰”前缺“零”。 The message is '' if the text is right, as `setCustomValidity` takes it.
 *
 * Throws a TypeError if the text is not a string, or the input or the language is unknown.
 *
 * @param {string} string
 * @param {Input} input
 * @param {Language} language
 * @returns {string}
 */
export function inputMessage(string, input, language) {
  const codes = [codeAmong(INPUT, input)];
  return messageFor(['chinese_input_message', string, codes], codeAmong(LANGUAGE, language));
}

/**
 * Writes a message for the person who typed a text that `toBigInt` refuses, as `inputMessage` does.
 * The options are those of `toBigInt`.
 *
 * @param {string} string
 * @param {Language} language
 * @param {ReadOptions} options
 * @returns {string}
 */
export function numberMessage(string, language, options = NO_OPTIONS) {
  const codes = codesOf(options);
  return messageFor(['chinese_number_message', string, codes], codeAmong(LANGUAGE, language));
}

/**
 * Writes a message for the person who typed a text that `toQuantity` refuses, as `inputMessage`
 * does. The options are those of `toQuantity`.
 *
 * @param {string} string
 * @param {Language} language
 * @param {MethodOptions} options
 * @returns {string}
 */
export function quantityMessage(string, language, options = NO_OPTIONS) {
  const codes = methodCodesOf(options);
  return messageFor(['chinese_quantity_message', string, codes], codeAmong(LANGUAGE, language));
}

/**
 * Writes what the code of an error means, in a language of LANGUAGES, for example to a person whose
 * number is too large to be written. The codes 'unsafe' and 'outOfMemory' have no such message.
 * Throws a TypeError if the status or the language is unknown.
 *
 * @param {Status} status
 * @param {Language} language
 * @returns {string}
 */
export function statusMessage(status, language) {
  return statusIn(codeAmong(STATUS, status), codeAmong(LANGUAGE, language));
}

/**
 * Answers a line as the program `numeral` does:
 * `answerLine('print u128 naive traditional lower 123')` is 'ok 一二三', and what is no question has
 * the answer 'bad line'. The line is a string, or bytes, which need not be UTF-8. Throws a TypeError
 * if it is neither.
 *
 * @param {string | Uint8Array} line
 * @returns {string}
 */
export function answerLine(line) {
  if (line instanceof Uint8Array) handBytes(line, Number(MOST_ANSWER_BYTES));
  else hand(line, Number(MOST_ANSWER_BYTES));
  const length = words[LENGTH_WORD];
  ended(library.chinese_number_answer_line(TEXT_AT, length, TEXT_AT + length, MOST_ANSWER_BYTES,
    LENGTH_AT));
  return decoded(Number(length));
}

// The message of a call of the module about a string, in a language.
/** @param {[name: string, string: string, codes: number[]]} source @param {number} language */
function messageFor([name, string, codes], language) {
  hand(string, Number(MOST_MESSAGE_BYTES));
  const length = words[LENGTH_WORD];
  ended(library[name](TEXT_AT, length, ...codes, language, TEXT_AT + length, MOST_MESSAGE_BYTES,
    LENGTH_AT));
  return decoded(Number(length));
}

/** @param {number} status @param {number} language */
function statusIn(status, language) {
  lend(Number(MOST_MESSAGE_BYTES));
  ended(library.chinese_status_message(status, language, TEXT_AT, MOST_MESSAGE_BYTES, LENGTH_AT));
  return decoded(0);
}
