// The types of chinese-number.mjs; tests/test_npm.py compares them with it.

/**
 * The version of this file and of the module.
 * @type {string}
 */
export const VERSION: string;

// Made by bindings/codes.py, from here ..

/**
 * The integer type that a number must fit: of u8 a number is from 0 to 255, of i8 from -128 to
 * 127.
 */
export const KINDS: readonly [
  'u8', 'u16', 'u32', 'u64', 'u128', 'i8', 'i16', 'i32', 'i64', 'i128',
];

/**
 * How a number is read or written: as plain digits, 一二三, or with units, 一百二十三, by one of four
 * methods. 'any' is the one to use. It reads a text as 'digits' if all of it is digits, with or
 * without a sign, otherwise as 'tenThousand'. It can read back what it writes: in simplified
 * script below 10^16 it writes as 'middle', so that 10^12 is 一万亿, and otherwise as
 * 'tenThousand'. 'tenThousand' writes 10^12 as 兆, as in Taiwan; 'middle' and 'high' write it as
 * 萬億, as on the mainland.
 *
 * - 'digits': as plain digits: 一二三 is 123.
 * - 'low': each unit is ten times the one before: 億 is 10^5.
 * - 'tenThousand': after 萬 each unit is 10^4 times the one before: 億 is 10^8, 兆 is 10^12.
 * - 'middle': after 億 each unit is 10^8 times the one before: 兆 is 10^16, 京 is 10^24.
 * - 'high': from 億 on each unit is the square of the one before: 兆 is 10^16, 京 is 10^32.
 * - 'any': chooses by the text, or by the script and the number.
 */
export const WAYS: readonly [
  'digits', 'low', 'tenThousand', 'middle', 'high', 'any',
];

/**
 * How an exact quantity is read or written: a way with units, or 'any'.
 */
export const METHODS: readonly [
  'low', 'tenThousand', 'middle', 'high', 'any',
];

/**
 * The script of a text that is written: 萬 or 万. Both are read.
 *
 * - 'traditional': 萬, 億.
 * - 'simplified': 万, 亿.
 */
export const SCRIPTS: readonly [
  'traditional', 'simplified',
];

/**
 * The case of a number that is written: 壹拾 or 一十. Both are read.
 *
 * - 'upper': 壹, 拾: the characters of cheques.
 * - 'lower': 一, 十.
 */
export const CASES: readonly [
  'upper', 'lower',
];

/**
 * A unit; each is greater than the one before. A search takes the greatest one that it looks
 * for: 'zhao' is the one to use, since in sentences greater ones nearly always mean something
 * else.
 *
 * - 'ge': 個, 个.
 * - 'shi': 十, 拾.
 * - 'bai': 百, 佰.
 * - 'qian': 千, 仟.
 * - 'wan': 萬, 万.
 * - 'yi': 億, 亿.
 * - 'zhao': 兆.
 * - 'jing': 京.
 * - 'gai': 垓.
 * - 'zi': 秭.
 * - 'rang': 穰.
 * - 'gou': 溝, 沟.
 * - 'jian': 澗, 涧.
 * - 'zheng': 正.
 * - 'zai': 載, 载.
 * - 'ji': 極, 极.
 */
export const UNITS: readonly [
  'ge', 'shi', 'bai', 'qian', 'wan', 'yi', 'zhao', 'jing', 'gai', 'zi', 'rang', 'gou', 'jian',
  'zheng', 'zai', 'ji',
];

/**
 * How a quantity is written.
 *
 * - 'whole': 35, 三十五, 3万.
 * - 'decimal': 3.5, 三點五, 3.5万.
 * - 'percent': 12.5%, 百分之五十.
 * - 'fraction': 三分之一, 千分之五.
 */
export const QUANTITY_FORMS: readonly [
  'whole', 'decimal', 'percent', 'fraction',
];

/**
 * Why a reader may understand an expression as something other than its quantity. If several
 * reasons apply, 'part' is reported if it is among them, and otherwise the first in this list.
 *
 * - 'word': it is part of a word or a title, or the year of an era: 十二 of 十二指肠, 十一 of 双十一, 四十一
 * of 乾隆四十一年.
 * - 'digits': it is two or three Chinese digits, or more in rising order, or two numbers: 五一,
 * 一二三四, 十五十六.
 * - 'term': it is part of a term: 负二 of 负二项, 十六 of 十六进制.
 * - 'part': it is part of an expression with 折, 成, 半 or 分之几: 八五 of 八五折, 一 of 一个半; or its last 一
 * begins the next word: 两百一 of 两百一个月.
 * - 'time': it may be a time: 三点五 of 下午三点五, 十点零五.
 * - 'range': it is one end of a range whose ends share a unit or 百分之: 3 and 5万 of 3~5万.
 */
export const DOUBTS: readonly [
  'word', 'digits', 'term', 'part', 'time', 'range',
];

/**
 * What an item of a text is: an expression that is in no phrase, or a phrase of a kind. What is
 * in brackets are the numbers first, second, third and fourth of a phrase, where a language has
 * no type of its own for its value.
 *
 * - 'expression': an expression in no phrase.
 * - 'date': a date or a part of one (the year, the month, the day).
 * - 'years': from a year to another one.
 * - 'months': from a month to another one of the same year.
 * - 'days': from a day to another one of the same month.
 * - 'time': a time of day (the hour as it is written, the minute, the second, the hour of 24).
 * - 'duration': a duration (hours, minutes and seconds).
 * - 'half': a number and a half, as 一个半小时 (the number without the half).
 * - 'length': a number with decimals, as 一米七五 (the number, the decimals, how many decimals there
 * are).
 * - 'score': two numbers that are compared.
 * - 'range': from a quantity to another one.
 * - 'money': a sum of money, as 三块五: the fen by their lower and their upper 32 bits, and 1; all
 * 0 if they are no whole number below 10^18.
 */
export const PHRASE_KINDS: readonly [
  'expression', 'date', 'years', 'months', 'days', 'time', 'duration', 'half', 'length', 'score',
  'range', 'money',
];

/**
 * What is known of a phrase.
 *
 * - 'certain': it has a value.
 * - 'doubtful': it has a value, but may mean something else: 1000年 of 1000年前, 五到八 of 五到八折.
 * - 'refused': it has no value: it names a day or a time that does not exist, or does not rise.
 */
export const PHRASE_STATES: readonly [
  'certain', 'doubtful', 'refused',
];

/**
 * What a text is meant to be, for the calls that say what may follow it and why it is refused:
 * each names the call that reads it.
 *
 * - 'amount': what chineseToAmount reads.
 * - 'signedAmount': what chineseToSignedAmount reads.
 * - 'typedAmount': what chineseToAmountAsTyped reads.
 * - 'typedSignedAmount': what chineseToSignedAmountAsTyped reads.
 * - 'date': what chineseToDate reads.
 * - 'figures': what yuanToFen reads.
 */
export const INPUTS: readonly [
  'amount', 'signedAmount', 'typedAmount', 'typedSignedAmount', 'date', 'figures',
];

/**
 * The language of a message.
 *
 * - 'en': English, en.
 * - 'zh-Hans': Chinese in simplified script, zh-Hans.
 * - 'zh-Hant': Chinese in traditional script, zh-Hant.
 */
export const LANGUAGES: readonly [
  'en', 'zh-Hans', 'zh-Hant',
];

/**
 * What is changed in a text to repair it.
 *
 * - 'insert': the character is inserted at the place.
 * - 'replace': the character replaces the one at the place.
 * - 'delete': the character at the place is deleted.
 */
export const CHANGES: readonly [
  'insert', 'replace', 'delete',
];

/**
 * Why a text is not a number or a quantity. From 'start' on it is the rule that the wrong
 * character breaks; from 'bareTen' on, a rule of quantities alone.
 *
 * - 'empty': the text is empty without its white space and, for signed types, one sign.
 * - 'tooLarge': the number is above the type's maximum, or has more than 128 bits.
 * - 'tooSmall': the number is below the type's minimum.
 * - 'start': a numeral starts with a digit or 十: 百 of 百五.
 * - 'character': it is no digit or unit: 角 of 一角.
 * - 'digits': a digit is directly after it, in a numeral with units: 一 of 一二.
 * - 'units': a unit that is not greater is directly after it: 百 of 一百十.
 * - 'ge': no greater unit is after 個: 個 of 三個.
 * - 'groups': the same unit is used again: 萬 of 一萬二萬.
 * - 'bareTen': 十 has no 一 before it: 十 of 三千零十万.
 * - 'repeatedTen': 十 or 百 is directly after 十: the second 十 of 十十.
 * - 'afterZero': a unit is directly after 零: 万 of 一亿零万.
 * - 'weight': 两 may be a unit of weight: 两 of 二两.
 * - 'twoReadings': the unit can multiply one digit or all before it: 万 of 一百五万.
 * - 'leftOutZero': 零 or a unit seems to be left out: 二 of 一亿二千.
 * - 'denominator': the denominator is not a whole number above 0: 零 of 零分之一.
 */
export const FAULTS: readonly [
  'empty', 'tooLarge', 'tooSmall', 'start', 'character', 'digits', 'units', 'ge', 'groups',
  'bareTen', 'repeatedTen', 'afterZero', 'weight', 'twoReadings', 'leftOutZero', 'denominator',
];

// .. up to here.

export type Kind = (typeof KINDS)[number];
export type Way = (typeof WAYS)[number];
export type Method = (typeof METHODS)[number];
export type Script = (typeof SCRIPTS)[number];
export type Case = (typeof CASES)[number];
export type Unit = (typeof UNITS)[number];
export type QuantityForm = (typeof QUANTITY_FORMS)[number];
export type Doubt = (typeof DOUBTS)[number];
export type PhraseKind = Exclude<(typeof PHRASE_KINDS)[number], 'expression'>;
export type PhraseState = (typeof PHRASE_STATES)[number];
export type Input = (typeof INPUTS)[number];
export type Language = (typeof LANGUAGES)[number];
export type Change = (typeof CHANGES)[number];
export type Fault = (typeof FAULTS)[number];
export type Yuan = '元' | '圆';
export type Closing = '整' | '正';
export type ReadOptions = { kind?: Kind; way?: Way };
export type PrintOptions = { kind?: Kind; way?: Way; script?: Script; case?: Case };
export type ScriptOptions = { script?: Script };
export type AmountOptions = { script?: Script; currency?: boolean; yuan?: Yuan; closing?: Closing };
export type SignedAmountOptions = AmountOptions & { bracketedSign?: boolean };
export type Wanted = { upper?: boolean; greatest?: Unit };
export type MethodOptions = { method?: Method };
export type QuantityOptions = { method?: Method; script?: Script; case?: Case };
export type Included = { about?: boolean; oneCharacter?: boolean; doubtful?: boolean };
export type ReplaceOptions = Wanted & MethodOptions & Included;
export type FiguresOptions = ReplaceOptions & { expanded?: boolean; canonical?: boolean };
export type TextOptions = FiguresOptions & { compact?: boolean; codes?: boolean };
export type SpeechOptions = { script?: Script; method?: Method; yao?: boolean };
export type BillDate = { year: number; month: number; day: number };
export type PartialDate = { year?: number; month?: number; day?: number };
export type ClockTime = { hour: number; minute: number; second: number; hourOfDay?: number };
export type Duration = { hours: number; minutes: number; seconds: number };
export type FirstAndLast = [first: number, last: number];
export type PhraseValues = {
  date: PartialDate;
  years: FirstAndLast;
  months: FirstAndLast;
  days: FirstAndLast;
  time: ClockTime;
  duration: Duration;
  half: Quantity;
  length: Quantity;
  score: [one: number, other: number];
  range: [low: Quantity, high: Quantity];
  money: Quantity;
};
export type AnyPhrase = { [Name in PhraseKind]: Phrase<Name> }[PhraseKind];
export type Place = { charIndex: number; start: number; end: number };
export type Point = { charIndex: number; index: number };
export type Expected = Point & { mayEnd: boolean; whiteSpace: boolean; characters: string[] };
export type Repair = Point & { change: Change; character: string };
export type NumeralCode =
  | 'empty'
  | 'incorrect'
  | 'tooLarge'
  | 'tooSmall'
  | 'unsafe'
  | 'notHeld'
  | 'notAQuantity'
  | 'outOfMemory';
export type AmountCode = 'unfinished' | 'incorrect' | 'tooLarge' | 'tooSmall' | 'unsafe';
export type DateCode = 'unfinished' | 'incorrect' | 'notADate';
export type Status = Exclude<NumeralCode | AmountCode | DateCode, 'unsafe' | 'outOfMemory'>;
export type RowStatus = 'done' | 'none' | Status | 'unsafe';
export type NumberArray =
  | Int8Array
  | Int16Array
  | Int32Array
  | Uint8Array
  | Uint16Array
  | Uint32Array
  | Float64Array;
export type BigIntArray = BigInt64Array | BigUint64Array;
export type WholeColumn = ReadonlyArray<bigint | number | null> | NumberArray | BigIntArray;
export type TextColumn = ReadonlyArray<string | null>;
export type ColumnOptions = { statuses?: RowStatus[] };
export type IntoOptions<Into> = ColumnOptions & { into?: Into };
export type Column<Value> = (Value | null)[];

/**
 * Reads a numeral as a Number: `toNumber('一百二')` is 120.
 *
 * The kind is 'i128' by default, and the way 'any'. Throws a NumeralError if the text is not a
 * numeral, or its number does not fit the kind. Throws a NumeralError with the code 'unsafe' if the
 * number is past 2 ** 53 - 1 on either side of zero, where a Number is not exact; `toBigInt` reads
 * such numbers. Throws a TypeError if the text is not a string, or an option or its value is
 * unknown.
 *
 * @param {string} string
 * @param {ReadOptions} options
 * @returns {number}
 */
export function toNumber(string: string, options?: ReadOptions): number;

/**
 * Reads a numeral as a BigInt: `toBigInt('一百二')` is 120n. It reads like `toNumber`, but never
 * throws 'unsafe'.
 *
 * @param {string} string
 * @param {ReadOptions} options
 * @returns {bigint}
 */
export function toBigInt(string: string, options?: ReadOptions): bigint;

/**
 * Writes a number: `toChinese(120)` is '一百二十'. The number is a BigInt or a safe integer.
 *
 * The defaults are the kind 'i128', the way 'any', the script 'simplified' and the case 'lower'.
 * Throws a NumeralError if the kind does not hold the number or the way cannot write it. Throws a
 * TypeError if the number is of another type, or an option or its value is unknown.
 *
 * @param {bigint | number} number
 * @param {PrintOptions} options
 * @returns {string}
 */
export function toChinese(number: bigint | number, options?: PrintOptions): string;

/**
 * Writes an amount of money in capitals, as on a cheque: `amountToChinese(1500)` is '壹拾伍元整'.
 *
 * The amount is in fen, hundredths of a yuan, as a BigInt or a safe integer. The script is
 * 'simplified' by default. `currency: true` adds the prefix 人民币; `yuan` is '元' by default, or '圆';
 * `closing` is '整' by default, or '正'. Throws an AmountError if the amount is below zero, which
 * `signedAmountToChinese` writes, or 10n ** 18n or more. Throws a TypeError if the amount is of
 * another type, or an option or its value is unknown.
 *
 * @param {bigint | number} fen
 * @param {AmountOptions} options
 * @returns {string}
 */
export function amountToChinese(fen: bigint | number, options?: AmountOptions): string;

/**
 * Writes an amount in capitals that may be negative, as on a red invoice:
 * `signedAmountToChinese(-1500)` is '负壹拾伍元整', in traditional script '負壹拾伍元整'.
 *
 * It writes like `amountToChinese`, with the prefix 负 if the amount is below zero, or （负数） with
 * `bracketedSign: true`. Throws an AmountError if the amount is 10n ** 18n or more, or
 * -(10n ** 18n) or less.
 *
 * @param {bigint | number} fen
 * @param {SignedAmountOptions} options
 * @returns {string}
 */
export function signedAmountToChinese(
  fen: bigint | number,
  options?: SignedAmountOptions,
): string;

/**
 * Reads an amount of money in capitals, and returns its fen as a Number:
 * `chineseToAmount('壹拾伍元整')` is 1500.
 *
 * Throws an AmountError if the text is not an amount. The code is 'unsafe' if the fen are past
 * 2 ** 53 - 1, where a Number is not exact; `chineseToAmountBigInt` reads such amounts. Throws a
 * TypeError if the text is not a string. White space is refused like any other character.
 *
 * @param {string} string
 * @returns {number}
 */
export function chineseToAmount(string: string): number;

/**
 * Reads an amount of money in capitals, as `chineseToAmount` does, and returns its fen as a BigInt:
 * `chineseToAmountBigInt('壹拾伍元整')` is 1500n.
 *
 * @param {string} string
 * @returns {bigint}
 */
export function chineseToAmountBigInt(string: string): bigint;

/**
 * Reads an amount in capitals that may be negative: `chineseToSignedAmount('负壹拾伍元整')` is -1500.
 *
 * It reads like `chineseToAmount`, with or without one prefix 负 or 負; 负零元整 is 0.
 *
 * @param {string} string
 * @returns {number}
 */
export function chineseToSignedAmount(string: string): number;

/**
 * Reads an amount in capitals, as `chineseToSignedAmount` does, and returns its fen as a BigInt:
 * `chineseToSignedAmountBigInt('负壹拾伍元整')` is -1500n.
 *
 * @param {string} string
 * @returns {bigint}
 */
export function chineseToSignedAmountBigInt(string: string): bigint;

/**
 * Reads an amount in capitals as people type it: `chineseToAmountAsTyped('人民币：壹拾 伍元整')` is 1500.
 *
 * It reads like `chineseToAmount`, but ignores white space, then one ⊗ at the start, and then one
 * : or ： directly after a leading 人民币. The place of an error is in the string as it is typed.
 *
 * @param {string} string
 * @returns {number}
 */
export function chineseToAmountAsTyped(string: string): number;

/**
 * Reads an amount in capitals, as `chineseToAmountAsTyped` does, and returns its fen as a BigInt:
 * `chineseToAmountAsTypedBigInt('⊗壹拾伍元整')` is 1500n.
 *
 * @param {string} string
 * @returns {bigint}
 */
export function chineseToAmountAsTypedBigInt(string: string): bigint;

/**
 * Reads an amount in capitals as people type it, or copy it from an invoice; it may be negative:
 * `chineseToSignedAmountAsTyped('⊗（负数）壹拾伍元整')` is -1500.
 *
 * It reads like `chineseToAmountAsTyped`, and ⊗ (or ⓧ), one of 负, 負, （负数） and （負數） (also with
 * ASCII parentheses), and 人民币 with or without a colon may come in any order at the start. It also
 * reads 人民币（大写）, with or without a colon.
 *
 * @param {string} string
 * @returns {number}
 */
export function chineseToSignedAmountAsTyped(string: string): number;

/**
 * Reads an amount in capitals, as `chineseToSignedAmountAsTyped` does, and returns its fen as a
 * BigInt: `chineseToSignedAmountAsTypedBigInt('⊗（负数）壹拾伍元整')` is -1500n.
 *
 * @param {string} string
 * @returns {bigint}
 */
export function chineseToSignedAmountAsTypedBigInt(string: string): bigint;

/**
 * Converts yuan to fen exactly, and returns a Number: `yuanToFen('1,409.50')` is 140950, and
 * `yuanToFen(15)` is 1500.
 *
 * The amount is a string of figures, a BigInt or a whole Number. Figures are digits, with a comma
 * before each group of three or without commas, after an optional minus (- or −) and an optional ¥.
 * A point may follow, with one or more digits; from the third on they must be 0. All of these may
 * be full-width. Nothing is rounded, and white space is refused.
 *
 * Throws an AmountError for any other text, and for 10n ** 16n yuan or more on either side of zero.
 * The code is 'unsafe' if the fen are past 2 ** 53 - 1; `yuanToFenBigInt` returns such amounts.
 * Throws a TypeError for other types and for numbers such as 15.5, which are not exact amounts.
 *
 * @param {string | bigint | number} yuan
 * @returns {number}
 */
export function yuanToFen(yuan: string | bigint | number): number;

/**
 * Converts yuan to fen, as `yuanToFen` does, and returns a BigInt: `yuanToFenBigInt('1,409.50')` is
 * 140950n.
 *
 * @param {string | bigint | number} yuan
 * @returns {bigint}
 */
export function yuanToFenBigInt(yuan: string | bigint | number): bigint;

/**
 * Writes a date in capitals, as on a cheque: `dateToChinese({ year: 2026, month: 1, day: 15 })` is
 * '贰零贰陆年零壹月壹拾伍日'.
 *
 * The date is an object with three whole Numbers as its own properties. The script is 'simplified'
 * by default. A Date is not accepted: it is an instant, whose day depends on the time zone. Throws
 * a DateError if the Gregorian calendar has no such day in the years 1 to 9999. Throws a TypeError
 * if the date is of another type, or an option or its value is unknown.
 *
 * @param {BillDate} date
 * @param {ScriptOptions} options
 * @returns {string}
 */
export function dateToChinese(date: BillDate, options?: ScriptOptions): string;

/**
 * Reads a date in capitals: `chineseToDate('贰零贰陆年零壹月壹拾伍日')` is
 * { year: 2026, month: 1, day: 15 }.
 *
 * Throws a DateError if the text is not a date, and a TypeError if it is not a string. White space
 * is refused like any other character.
 *
 * @param {string} string
 * @returns {BillDate}
 */
export function chineseToDate(string: string): BillDate;

/**
 * Writes the numbers of a column, each as `toChinese` does, in less time than a loop:
 * `toChineseColumn([120, null])` is ['一百二十', null].
 *
 * The column is an array of BigInts, safe integers and null, for a missing row, or a typed array.
 * The options are those of `toChinese`, and `statuses`. The first refused row throws the error of
 * `toChinese`, with the row's index as `row`. If `statuses` is an array, a refused row is null
 * instead, and the array is filled with the status of each row: 'done', 'none' for a missing row,
 * or the error's code. Throws a TypeError if the column is not an array, a row is of another type,
 * or an option or its value is unknown.
 *
 * @param {WholeColumn} numbers
 * @param {PrintOptions & ColumnOptions} options
 * @returns {Column<string>}
 */
export function toChineseColumn(
  numbers: WholeColumn,
  options?: PrintOptions & ColumnOptions,
): Column<string>;

/**
 * Writes the amounts of a column, in fen, each as `amountToChinese` does. The column and `statuses`
 * are as for `toChineseColumn`.
 *
 * @param {WholeColumn} fen
 * @param {AmountOptions & ColumnOptions} options
 * @returns {Column<string>}
 */
export function amountToChineseColumn(
  fen: WholeColumn,
  options?: AmountOptions & ColumnOptions,
): Column<string>;

/**
 * Writes the amounts of a column, in fen, each as `signedAmountToChinese` does:
 * `signedAmountToChineseColumn([1500, -1500])` is ['壹拾伍元整', '负壹拾伍元整']. The column and `statuses`
 * are as for `toChineseColumn`.
 *
 * @param {WholeColumn} fen
 * @param {SignedAmountOptions & ColumnOptions} options
 * @returns {Column<string>}
 */
export function signedAmountToChineseColumn(
  fen: WholeColumn,
  options?: SignedAmountOptions & ColumnOptions,
): Column<string>;

/**
 * Writes the dates of a column, each as `dateToChinese` does. Null is a missing row. The options
 * are those of `dateToChinese`, and `statuses`, as for `toChineseColumn`.
 *
 * @param {ReadonlyArray<BillDate | null>} dates
 * @param {ScriptOptions & ColumnOptions} options
 * @returns {Column<string>}
 */
export function dateToChineseColumn(
  dates: ReadonlyArray<BillDate | null>,
  options?: ScriptOptions & ColumnOptions,
): Column<string>;

/**
 * Reads the texts of a column, each as `toNumber` does:
 * `toNumberColumn(['一百二', null])` is [120, null].
 *
 * Null is a missing row. The options are those of `toNumber`, `statuses`, as for `toChineseColumn`,
 * and `into`: an array that the numbers are written into, and that is returned. In a typed array a
 * missing or refused row is 0. An array of whole numbers determines the kind: `Int32Array` means
 * 'i32'; a `Float64Array` holds each number. The first refused row throws what `toNumber` throws,
 * with its index as `row`. Throws a TypeError if the column is not an array, a row is not a string,
 * `into` is too short, is of another type, or does not hold the kind, or an option or its value is
 * unknown.
 *
 * @template {NumberArray | Column<number>} [Into=Column<number>]
 * @param {TextColumn} texts
 * @param {ReadOptions & IntoOptions<Into>} options
 * @returns {Into}
 */
export function toNumberColumn<Into extends NumberArray | Column<number> = Column<number>>(
  texts: TextColumn,
  options?: ReadOptions & IntoOptions<Into>,
): Into;

/**
 * Reads the texts of a column, each as `toBigInt` does: `toBigIntColumn(['一百二', null])` is
 * [120n, null]. The options are those of `toNumberColumn`; `into` is an array, a `BigInt64Array`,
 * which means the kind 'i64', or a `BigUint64Array`, which means 'u64'.
 *
 * @template {BigIntArray | Column<bigint>} [Into=Column<bigint>]
 * @param {TextColumn} texts
 * @param {ReadOptions & IntoOptions<Into>} options
 * @returns {Into}
 */
export function toBigIntColumn<Into extends BigIntArray | Column<bigint> = Column<bigint>>(
  texts: TextColumn,
  options?: ReadOptions & IntoOptions<Into>,
): Into;

/**
 * Reads the amounts of a column, in fen, each as `chineseToSignedAmount` does:
 * `chineseToSignedAmountColumn(['壹拾伍元整', '负壹拾伍元整'])` is [1500, -1500]. Null is a missing row.
 * The options are `statuses` and `into`, as for `toNumberColumn`; `into` is an array or a
 * `Float64Array`.
 *
 * @template {Float64Array | Column<number>} [Into=Column<number>]
 * @param {TextColumn} texts
 * @param {IntoOptions<Into>} options
 * @returns {Into}
 */
export function chineseToSignedAmountColumn<Into extends Float64Array | Column<number> = Column<number>>(
  texts: TextColumn,
  options?: IntoOptions<Into>,
): Into;

/**
 * Reads the amounts of a column, as `chineseToSignedAmountColumn` does, as BigInts; `into` is an
 * array or a `BigInt64Array`.
 *
 * @template {BigInt64Array | Column<bigint>} [Into=Column<bigint>]
 * @param {TextColumn} texts
 * @param {IntoOptions<Into>} options
 * @returns {Into}
 */
export function chineseToSignedAmountBigIntColumn<Into extends BigInt64Array | Column<bigint> = Column<bigint>>(
  texts: TextColumn,
  options?: IntoOptions<Into>,
): Into;

/**
 * Reads the amounts of a column, each as `chineseToSignedAmountAsTyped` does. The options are those
 * of `chineseToSignedAmountColumn`.
 *
 * @template {Float64Array | Column<number>} [Into=Column<number>]
 * @param {TextColumn} texts
 * @param {IntoOptions<Into>} options
 * @returns {Into}
 */
export function chineseToSignedAmountAsTypedColumn<Into extends Float64Array | Column<number> = Column<number>>(
  texts: TextColumn,
  options?: IntoOptions<Into>,
): Into;

/**
 * Reads the amounts of a column, as `chineseToSignedAmountAsTypedColumn` does, as BigInts; `into`
 * is an array or a `BigInt64Array`.
 *
 * @template {BigInt64Array | Column<bigint>} [Into=Column<bigint>]
 * @param {TextColumn} texts
 * @param {IntoOptions<Into>} options
 * @returns {Into}
 */
export function chineseToSignedAmountAsTypedBigIntColumn<Into extends BigInt64Array | Column<bigint> = Column<bigint>>(
  texts: TextColumn,
  options?: IntoOptions<Into>,
): Into;

/**
 * Converts the yuan of a column to fen, each as `yuanToFen` does:
 * `yuanToFenColumn(['1,409.50', 15])` is [140950, 1500]. Null is a missing row. The options are
 * those of `chineseToSignedAmountColumn`.
 *
 * @template {Float64Array | Column<number>} [Into=Column<number>]
 * @param {ReadonlyArray<string | bigint | number | null>} yuan
 * @param {IntoOptions<Into>} options
 * @returns {Into}
 */
export function yuanToFenColumn<Into extends Float64Array | Column<number> = Column<number>>(
  yuan: ReadonlyArray<string | bigint | number | null>,
  options?: IntoOptions<Into>,
): Into;

/**
 * Converts the yuan of a column to fen, as `yuanToFenColumn` does, and returns BigInts; `into` is
 * an array or a `BigInt64Array`.
 *
 * @template {BigInt64Array | Column<bigint>} [Into=Column<bigint>]
 * @param {ReadonlyArray<string | bigint | number | null>} yuan
 * @param {IntoOptions<Into>} options
 * @returns {Into}
 */
export function yuanToFenBigIntColumn<Into extends BigInt64Array | Column<bigint> = Column<bigint>>(
  yuan: ReadonlyArray<string | bigint | number | null>,
  options?: IntoOptions<Into>,
): Into;

/**
 * Reads the dates of a column, each as `chineseToDate` does. Null is a missing row; the options are
 * `statuses`, as for `toChineseColumn`, and `into`, an array.
 *
 * @param {TextColumn} texts
 * @param {IntoOptions<Column<BillDate>>} options
 * @returns {Column<BillDate>}
 */
export function chineseToDateColumn(
  texts: TextColumn,
  options?: IntoOptions<Column<BillDate>>,
): Column<BillDate>;

/**
 * Finds the numbers of a text, and yields them in order: in '第二十三回', 二十三 from 1 to 4.
 *
 * A number is a longest run of characters that can be in one; its `value()` says whether it can be
 * read. The characters are digits, units up to `greatest` ('zhao', which is 兆, by default), and
 * with `upper: true` those of cheques. Sentences are not understood: 一起 contains a 1. Throws a
 * TypeError if the text is not a string, or an option or its value is unknown. The call itself
 * searches the whole text.
 *
 * @param {string} string
 * @param {Wanted} options
 * @returns {Generator<Found, void, undefined>}
 */
export function findNumbers(string: string, options?: Wanted): Generator<Found, void, undefined>;

/**
 * Reads an exact quantity, as it is written: '3.5万' is the decimal 350000/10, '12.5%' is 125/1000,
 * and '三分之一' is 1/3.
 *
 * A quantity is a whole number, a decimal, a percentage or a fraction, in figures, in numerals or
 * in both, with or without one leading sign; white space is ignored. The method is 'any' by
 * default, which means 'tenThousand' here. Throws a NumeralError if the text is not a quantity or
 * its numbers are too large, and a TypeError if it is not a string, or an option or its value is
 * unknown.
 *
 * @param {string} string
 * @param {MethodOptions} options
 * @returns {Quantity}
 */
export function toQuantity(string: string, options?: MethodOptions): Quantity;

/**
 * Finds the expressions of a text, as `findNumbers` finds its numbers: numbers with their sign,
 * figures, point and units, percentages and fractions. In '占12.5%，共3.5万' these are 12.5% and 3.5万.
 *
 * @param {string} string
 * @param {Wanted} options
 * @returns {Generator<FoundQuantity, void, undefined>}
 */
export function findQuantities(
  string: string,
  options?: Wanted,
): Generator<FoundQuantity, void, undefined>;

/**
 * Finds the phrases of a text, and its expressions that are in none: in '一月五日下午三点半，二十人' the
 * date 一月五日, the time 下午三点半 and the expression 二十.
 *
 * Phrases are dates, times of day, durations, ranges, scores, halves, lengths and sums of money.
 * Yields a `Phrase` for each of them, with its `kind` and `value`, and for each of these
 * expressions the same as `findQuantities`. Throws a TypeError as that does.
 *
 * @param {string} string
 * @param {Wanted} options
 * @returns {Generator<AnyPhrase | FoundQuantity, void, undefined>}
 */
export function findPhrases(
  string: string,
  options?: Wanted,
): Generator<AnyPhrase | FoundQuantity, void, undefined>;

/**
 * Replaces the expressions of a text: with `(found) => found.quantity().toChinese()` '占12.5%'
 * becomes '占百分之十二点五'.
 *
 * Calls a function for each expression that `findQuantities` finds and `toQuantity` reads by the
 * method. The function returns the text that replaces it, or undefined to keep it. Expressions that
 * are approximate, one Chinese character or doubtful stay, unless `about`, `oneCharacter` or
 * `doubtful` is true; those with the doubt 'part' always stay. Throws what the function throws, a
 * TypeError if it returns anything else, and what `findQuantities` throws.
 *
 * @param {string} string
 * @param {(found: FoundQuantity) => string | undefined} replacement
 * @param {ReplaceOptions} options
 * @returns {string}
 */
export function replaceQuantities(
  string: string,
  replacement: (found: FoundQuantity) => string | undefined,
  options?: ReplaceOptions,
): string;

/**
 * Rewrites the numerals of a text in figures, as an editor does: '市值三点五亿元，占百分之十二点五'
 * becomes '市值3.5亿元，占12.5%'.
 *
 * These stay: figures; what `toQuantity` refuses; approximate expressions, single Chinese
 * characters and doubtful expressions, unless `about`, `oneCharacter` or `doubtful` is true;
 * expressions with the doubt 'part'; a part of a name, an address or another number; 千分之五 and
 * 二又五分之三; all of a date, a time, a length, an amount or a range of which one part stays; and the
 * rest of the text. `expanded` writes out 万, 亿 and so on: 三千五百亿 and 3500亿 become
 * 350000000000. `canonical` rewrites figures in ASCII, without commas and leading zeros. Throws a
 * TypeError as `findQuantities` does.
 *
 * @param {string} string
 * @param {FiguresOptions} options
 * @returns {string}
 */
export function quantitiesToFigures(string: string, options?: FiguresOptions): string;

/**
 * Rewrites a text in figures, as an editor does, with its dates, times, ranges and other phrases:
 * '二零二六年一月五日下午三点半，三到五万元' becomes '2026年1月5日下午3点半，3万到5万元'.
 *
 * It rewrites the phrases that `findPhrases` finds, whose words stay, and the other expressions as
 * `quantitiesToFigures` does. These stay too: phrases without a value, as 二月三十日; doubtful phrases,
 * unless `doubtful` is true; and halves after one Chinese character, as 一个半小时, unless
 * `oneCharacter` is true. `compact` writes whole dates, times whose hour of 24 is known, halves,
 * and sums of money with 角 or 分 as short as possible: '2026-01-05 15:30', '1.5小时', '3.5元'. `codes`
 * also writes codes, such as telephone numbers: '打幺幺零' becomes '打110'. Throws a TypeError as
 * `findQuantities` does.
 *
 * @param {string} string
 * @param {TextOptions} options
 * @returns {string}
 */
export function textToFigures(string: string, options?: TextOptions): string;

/**
 * Rewrites a text as it is spoken: '2026年1月5日15:30，共2.5kg' becomes
 * '二零二六年一月五日十五点三十分，共二点五千克'.
 *
 * Its figures, signs and measures become Chinese characters of the `script`, and large numbers are
 * written by the `method`. Codes, such as telephone numbers, are spoken digit by digit, with `yao: true`
 * with 幺 for 1. The rest stays, and so does what no rule covers, such as 'x86', whose 86
 * `findUnspoken` finds. Throws a TypeError as `findQuantities` does.
 *
 * @param {string} string
 * @param {SpeechOptions} options
 * @returns {string}
 */
export function textToSpeech(string: string, options?: SpeechOptions): string;

/**
 * Finds the parts with figures that `textToSpeech` leaves as they are, and yields them in order: in
 * '共3人，x86，2026.1.15' these are 86 and 2026.1.15. Not all of them are quantities. Throws a TypeError if the
 * text is not a string.
 *
 * @param {string} string
 * @returns {Generator<FoundQuantity, void, undefined>}
 */
export function findUnspoken(string: string): Generator<FoundQuantity, void, undefined>;

/**
 * Says what may come next in a text that is meant to be an input of INPUTS, for example to offer
 * keys: `inputExpected('壹佰', 'amount').characters` are 元, 零 and so on.
 *
 * `charIndex` and `index` are the length, in characters and in UTF-16 code units, of the longest
 * part of the text, from its start, that begins such an input: all of it, or up to the wrong
 * character. `mayEnd` says whether this part is complete. `characters` may come next, and if
 * `whiteSpace` is true, so may white space. Throws a TypeError if the text is not a string or the
 * input is unknown.
 *
 * @param {string} string
 * @param {Input} input
 * @returns {Expected}
 */
export function inputExpected(string: string, input: Input): Expected;

/**
 * Finds one change of a text after which it goes on past its wrong character:
 * `inputRepair('壹佰贰元整', 'amount')` is
 * { change: 'insert', charIndex: 2, index: 2, character: '零' }.
 *
 * A text that is only unfinished becomes right. There may be another fault further on, and only a
 * person can say that the change is what was meant. `charIndex` and `index` are the place, in
 * characters and in UTF-16 code units; `character` is empty for 'delete'. Returns undefined if the
 * text is right, or if no change is found. Throws a TypeError as `inputExpected` does.
 *
 * @param {string} string
 * @param {Input} input
 * @returns {Repair | undefined}
 */
export function inputRepair(string: string, input: Input): Repair | undefined;

/**
 * Says why `toBigInt` refuses a text: `explainNumber('一百十')` is 'units', the rule that the text
 * breaks from its wrong character on. Returns undefined if the text is read.
 *
 * The options are those of `toBigInt`. Throws a TypeError if the text is not a string, or an option
 * or its value is unknown.
 *
 * @param {string} string
 * @param {ReadOptions} options
 * @returns {Fault | undefined}
 */
export function explainNumber(string: string, options?: ReadOptions): Fault | undefined;

/**
 * Says why `toQuantity` refuses a text: `explainQuantity('零分之一')` is 'denominator'. Returns
 * undefined if the text is read. The options are those of `toQuantity`. Throws a TypeError as
 * `explainNumber` does.
 *
 * @param {string} string
 * @param {MethodOptions} options
 * @returns {Fault | undefined}
 */
export function explainQuantity(string: string, options?: MethodOptions): Fault | undefined;

/**
 * Writes a message for the person who typed a text that is meant to be an input of INPUTS, in a
 * language of LANGUAGES: why it is not such an input, with the wrong character, its position, which
 * counts from 1, and the repair, if there is one. `inputMessage('壹佰贰元整', 'amount', 'zh-Hans')` is
 * 第3个字“贰”前缺“零”。 The message is '' if the text is right, as `setCustomValidity` takes it.
 *
 * Throws a TypeError if the text is not a string, or the input or the language is unknown.
 *
 * @param {string} string
 * @param {Input} input
 * @param {Language} language
 * @returns {string}
 */
export function inputMessage(string: string, input: Input, language: Language): string;

/**
 * Writes a message for the person who typed a text that `toBigInt` refuses, as `inputMessage` does.
 * The options are those of `toBigInt`.
 *
 * @param {string} string
 * @param {Language} language
 * @param {ReadOptions} options
 * @returns {string}
 */
export function numberMessage(
  string: string,
  language: Language,
  options?: ReadOptions,
): string;

/**
 * Writes a message for the person who typed a text that `toQuantity` refuses, as `inputMessage`
 * does. The options are those of `toQuantity`.
 *
 * @param {string} string
 * @param {Language} language
 * @param {MethodOptions} options
 * @returns {string}
 */
export function quantityMessage(
  string: string,
  language: Language,
  options?: MethodOptions,
): string;

/**
 * Writes what the code of an error means, in a language of LANGUAGES, for example to a person whose
 * number is too large to be written. The codes 'unsafe' and 'outOfMemory' have no such message.
 * Throws a TypeError if the status or the language is unknown.
 *
 * @param {Status} status
 * @param {Language} language
 * @returns {string}
 */
export function statusMessage(status: Status, language: Language): string;

/**
 * Answers a line as the program `numeral` does:
 * `answerLine('print u128 naive traditional lower 123')` is 'ok 一二三', and what is no question has
 * the answer 'bad line'. The line is a string, or bytes, which need not be UTF-8. Throws a TypeError
 * if it is neither.
 *
 * @param {string | Uint8Array} line
 * @returns {string}
 */
export function answerLine(line: string | Uint8Array): string;

/** A refusal, with the place of the wrong character if there is one. */
declare class Refusal extends Error {
  /**
   * @param {string} message
   * @param {Place} [place]
   */
  constructor(message: string, place?: Place);
  /** For 'incorrect': how many characters come before the wrong one. */
  charIndex: number | undefined;
  /**
   * For 'incorrect': where it starts in the string, in UTF-16 code units, as setSelectionRange
   * and slice take it.
   */
  start: number | undefined;
  /** For 'incorrect': where it ends, likewise. */
  end: number | undefined;
  /**
   * For a call that converts a column: the index of the row.
   * @type {number | undefined}
   */
  row: number | undefined;
  /**
   * The message for the person who typed the text, in a language of LANGUAGES: why the text is
   * refused, and how it can be repaired if a change of one character does that. If a number, an
   * amount or a date could not be written, it says why. For 'unsafe' it is that of 'tooLarge', and
   * for 'outOfMemory' it is `message`.
   *
   * The message is computed by each call. Throws a TypeError if the language is unknown.
   *
   * @param {Language} language
   * @returns {string}
   */
  messageIn(language: Language): string;
}

/**
 * A text could not be read as a number or quantity, or a number or quantity could not be written.
 *
 * `code` is
 * - 'empty': the text is empty without its white space and, for a signed type, one sign;
 * - 'incorrect': a character cannot be at its place;
 * - 'tooLarge', 'tooSmall': the number read does not fit the type, or 'low' cannot write the
 *   number;
 * - 'unsafe': the number read is not a safe integer, so a Number does not hold it exactly;
 * - 'notHeld': the type does not hold the number to write, or a number of a quantity;
 * - 'notAQuantity': the denominator is 0;
 * - 'outOfMemory': the host has no memory for the text; any call can throw this.
 */
export class NumeralError extends Refusal {
  /**
   * @param {NumeralCode} code
   * @param {Kind} [kind]
   * @param {Place} [place]
   */
  constructor(code: NumeralCode, kind?: Kind, place?: Place);
  code: NumeralCode;
  /**
   * The integer type of the number; undefined if a quantity was read or written, and for
   * 'outOfMemory'.
   */
  kind: Kind | undefined;
}

/**
 * A text could not be read as an amount of money, or an amount could not be written.
 *
 * `code` is
 * - 'unfinished': the text is not an amount, but more text can make it one, as for '壹佰元';
 * - 'incorrect': no amount begins with the text up to and including a character;
 * - 'unsafe': the fen are not a safe integer, so a Number does not hold them exactly;
 * - 'tooLarge': the amount is 10n ** 18n fen or more, or figures after a minus are that large;
 * - 'tooSmall': the amount to write is -(10n ** 18n) fen or less, or `amountToChinese` got a
 *   negative amount.
 */
export class AmountError extends Refusal {
  /**
   * @param {AmountCode} code
   * @param {Place} [place]
   * @param {string} [hint] What the message adds after a colon.
   */
  constructor(code: AmountCode, place?: Place, hint?: string);
  code: AmountCode;
}

/**
 * A text could not be read as a date, or a date could not be written.
 *
 * `code` is
 * - 'unfinished': the text is not a date, but more text can make it one;
 * - 'incorrect': no date begins with the text up to and including a character;
 * - 'notADate': the date to write does not exist.
 */
export class DateError extends Refusal {
  /**
   * @param {DateCode} code
   * @param {Place} [place]
   */
  constructor(code: DateCode, place?: Place);
  code: DateCode;
}

/**
 * An exact quantity, as it is written and not reduced: 12.5% is 125/1000 with the form 'percent'.
 *
 * The numerator may be negative, and the denominator is above 0; both have at most 128 bits. A
 * quantity is immutable. `toQuantity` reads one from a text, such as '-3.50'; `Quantity.decimal`,
 * `Quantity.percent` and `Quantity.fraction` make one from numbers. These and the constructor throw
 * a NumeralError if the denominator is 0 or a number has more bits, and a TypeError if a number is
 * neither a BigInt nor a safe integer, or the form is unknown.
 */
export class Quantity {
  /**
   * Makes a number with 0 to 38 decimals: `Quantity.decimal(314, 2)` is 3.14, and
   * `Quantity.decimal(3)` is 3, with the form 'whole'.
   *
   * @param {bigint | number} numerator
   * @param {number} decimals
   */
  static decimal(numerator: bigint | number, decimals?: number): Quantity;
  /**
   * Makes a percentage with 0 to 36 decimals: `Quantity.percent(125, 1)` is 12.5%, and
   * `Quantity.percent(5)` is 5%.
   *
   * @param {bigint | number} numerator
   * @param {number} decimals
   */
  static percent(numerator: bigint | number, decimals?: number): Quantity;
  /**
   * Makes a fraction: `Quantity.fraction(1, 3)` is 三分之一.
   *
   * @param {bigint | number} numerator
   * @param {bigint | number} denominator
   */
  static fraction(numerator: bigint | number, denominator: bigint | number): Quantity;
  /**
   * @param {bigint | number} numerator
   * @param {bigint | number} denominator
   * @param {QuantityForm} form
   */
  constructor(numerator: bigint | number, denominator: bigint | number, form: QuantityForm);
  /** The number above the line. */
  readonly numerator: bigint;
  /** The number below the line. */
  readonly denominator: bigint;
  /** How it is written. */
  readonly form: QuantityForm;
  /**
   * Whether another quantity has the same numerator, denominator and form.
   *
   * @param {Quantity} other
   */
  equals(other: Quantity): boolean;
  /**
   * The value as a BigInt, or null if it is not a whole number: 35000n for 3.5万, null for 3.5.
   */
  toWhole(): bigint | null;
  /**
   * The same quantity without the zeros at the end of its decimals: 3.10 becomes 3.1, and 3.5万
   * becomes 35000, with the form 'whole'. A fraction stays the same, and so does a quantity whose
   * denominator does not match its form.
   */
  trimmed(): Quantity;
  /**
   * Writes the quantity: 3.14 as 三点一四, 12.5% as 百分之十二点五, 1/3 as 三分之一. `toQuantity` reads
   * the text by the same method as the same numerator and denominator. A quantity whose denominator
   * does not match its form is written as a fraction.
   *
   * The defaults are the method 'any', the script 'simplified' and the case 'lower'. 'any' chooses
   * the method by the greatest number that is spelled. Throws a NumeralError if 'low' cannot write
   * one of its numbers, and a TypeError if an option or its value is unknown.
   *
   * @param {QuantityOptions} options
   * @returns {string}
   */
  toChinese(options?: QuantityOptions): string;
  /**
   * Writes the quantity in figures, without zeros at the end of its decimals: '35000' for 3.5万,
   * '-3.5', '12.5%', '1/3', and '50%' for 百分之五十.
   *
   * @returns {string}
   */
  toFigures(): string;
}

/** The place of a number or an expression in a text, and what is reported about it. */
declare class Span {
  /**
   * @param {number} start
   * @param {string} text
   * @param {number} flags
   */
  constructor(start: number, text: string, flags: number);
  /**
   * Where it starts in the string, in UTF-16 code units, as setSelectionRange and slice take it.
   */
  start: number;
  /** Where it ends, likewise. */
  end: number;
  /** The text of the number or expression itself. */
  text: string;
  /** Whether it is plain digits: 二零二五 is, 十 is not. */
  isPlain: boolean;
  /** Whether it continues on neither side: 二十三 in 第二十三回 stands alone, the 4 in A4 does not. */
  standsAlone: boolean;
  /** Whether it is approximate, such as 十 in 十几, and 五六. */
  isAbout: boolean;
  /** Whether it is one character and no figure, such as 一 in 一般. */
  isOneCharacter: boolean;
}

/** A number in a text, as findNumbers yields it. */
export class Found extends Span {
  /**
   * Reads the number as toNumber does: plain digits as such, anything else by the given way, where
   * 'any' means 'tenThousand'.
   *
   * Throws what toNumber throws; a place counts within the number's own text.
   *
   * @param {ReadOptions} options
   * @returns {number}
   */
  number(options?: ReadOptions): number;
  /**
   * Reads the number as a BigInt, as toBigInt does.
   *
   * @param {ReadOptions} options
   * @returns {bigint}
   */
  bigInt(options?: ReadOptions): bigint;
  /**
   * The number, or null if its text is refused, such as 百 in 百分之五十, or the number is not a safe
   * integer. Otherwise throws what `number` throws.
   *
   * @param {ReadOptions} options
   * @returns {number | null}
   */
  value(options?: ReadOptions): number | null;
}

/** An expression in a text, as findQuantities yields it. */
export class FoundQuantity extends Span {
  /**
   * Why a reader may understand it as something other than its quantity, or null: 'digits' for
   * 五一.
   * @type {Doubt | null}
   */
  doubt: Doubt | null;
  /**
   * Reads the expression as toQuantity does.
   *
   * Throws what toQuantity throws; a place counts within the expression's own text.
   *
   * @param {MethodOptions} options
   * @returns {Quantity}
   */
  quantity(options?: MethodOptions): Quantity;
  /**
   * The quantity, or null if its text is refused, such as 五六十. Otherwise throws what `quantity`
   * throws.
   *
   * @param {MethodOptions} options
   * @returns {Quantity | null}
   */
  value(options?: MethodOptions): Quantity | null;
}

/**
 * A phrase in a text, as findPhrases yields it: a date, a time, a range and so on.
 *
 * By `kind`, `value` is
 * - 'date': { year, month, day }, without what the text does not give. A year of two digits is as
 *   it is written: 26 for 二六年;
 * - 'years', 'months', 'days': the first and the last;
 * - 'time': { hour, minute, second, hourOfDay }. The hour is as it is written: 3 for 下午三点半.
 *   `hourOfDay` is the hour of 24, 15; it is 24 at the end of a day, and missing if it is not
 *   known, as for 三点半;
 * - 'duration': { hours, minutes, seconds };
 * - 'half', 'length': a Quantity, 1.5 for 一个半小时 and 1.75 for 一米七五;
 * - 'score': the two numbers;
 * - 'range': the two Quantities, 30000 and 50000 for 三到五万;
 * - 'money': a Quantity of yuan, 3.50 for 三块五; null if it is no whole number of fen below 10^18.
 *
 * @template {PhraseKind} Name
 */
export class Phrase<Name extends PhraseKind> {
  /**
   * @param {number} start
   * @param {string} text
   * @param {Name} kind
   * @param {PhraseState} state
   * @param {PhraseValues[Name] | null} value
   */
  constructor(
    start: number,
    text: string,
    kind: Name,
    state: PhraseState,
    value: PhraseValues[Name] | null,
  );
  /**
   * Where it starts in the string, in UTF-16 code units, as setSelectionRange and slice take it.
   */
  start: number;
  /** Where it ends, likewise. */
  end: number;
  /** The text of the phrase itself. */
  text: string;
  /** What it is, one of PHRASE_KINDS. */
  kind: Name;
  /**
   * What is known of it: 'refused' if it has no value, as 二月三十日, and 'doubtful' if it may mean
   * something else, as 1000年 of 1000年前.
   */
  state: PhraseState;
  /** What it means, or null if it is refused. */
  value: PhraseValues[Name] | null;
}

export {};
