#!/usr/bin/env node
// The command chinese-number. It writes and reads amounts, dates and numerals, finds the quantities
// or the numbers of a text, replaces quantities, answers lines, and converts the amounts in a table.
// Results go to standard output, and refusals, which name what is refused, to standard error. The status is 0 if
// everything was converted, 1 if something was refused or could not be read or written, and 2 if
// the command line is not valid.

import { isUtf8 } from 'node:buffer';
import { fstatSync } from 'node:fs';

import {
  AmountError, DateError, KINDS, LANGUAGES, METHODS, NumeralError, VERSION, WAYS, answerLine,
  chineseToAmountAsTypedBigInt, chineseToAmountBigInt, chineseToDate,
  chineseToSignedAmountAsTypedBigInt, chineseToSignedAmountBigInt, dateToChinese, findNumbers,
  findQuantities, quantitiesToFigures, signedAmountToChinese, textToFigures, textToSpeech, toBigInt,
  toChinese, yuanToFenBigInt,
} from './chinese-number.mjs';
import { Misuse, Refused, Table, linesOfTable, refusalOf, shown } from './table.mjs';

function notOneOf(name, choices, given) {
  const wanted = [...choices].join(', ').replace(/, ([^,]*)$/, ' or $1');
  return new Misuse(`${name} must be ${wanted}${given ? `, not ${given}` : ''}`);
}

// The values of an option: each word with its meaning, or the words that match a pattern. A flag
// does not take a value.
const FLAG = null;
const snake = (name) => name.replace(/[A-Z]/g, (it) => `_${it.toLowerCase()}`);
const wordsFor = (names) => new Map(names.map((it) => [snake(it), it]));
const KIND = wordsFor(KINDS), WAY = wordsFor(WAYS), METHOD = wordsFor(METHODS);
const LANGUAGE = new Map(LANGUAGES.map((it) => [it, it]));
const COLUMN = { has: Boolean, get: String, keys: () => ["a column's number or name"] };
const NAME = { has: Boolean, get: String, keys: () => ['a text that is not empty'] };
const DELIMITER = {
  has: (it) => /^[^"\r\n]$/u.test(it), get: String,
  keys: () => ['a character other than a quote or a line end'],
};

const USAGE = `\
usage: chinese-number amount [--traditional] [--currency] [--yuan 圆] [--closing 正] [--typed]
                             [--signed [--bracketed-sign]] [--language en] WORD...
       chinese-number amount ... --column N [--header [--name TEXT]] [--delimiter ,]
       chinese-number amount ... --column NAME [--name TEXT] [--delimiter ,]
       chinese-number date [--traditional] [--language en] WORD...
       chinese-number read [--kind i128] [--way any] [--language en] WORD...
       chinese-number print [--traditional] [--upper] [--kind i128] [--way any] [--language en]
                            NUMBER...
       chinese-number find [--all] [--method any]
       chinese-number find --numbers [--all] [--kind u128] [--way any]
       chinese-number replace [--phrases] [--all] [--method any] [--about] [--one-character]
                              [--doubtful] [--expanded] [--canonical] [--compact] [--codes]
                              [WORD...]
       chinese-number speak [--traditional] [--method any] [--yao] [WORD...]
       chinese-number lines
       chinese-number --help | --version

amount   converts yuan to capitals, 1409.50 to 壹仟肆佰零玖元伍角整, and capitals to yuan
   --currency       writes the prefix 人民币
   --yuan 圆        writes 圆 instead of 元
   --closing 正     writes 正 instead of 整
   --signed         also converts amounts below zero, -15 to 负壹拾伍元整; otherwise they are refused
   --bracketed-sign writes （负数）壹拾伍元整 instead of 负壹拾伍元整
   --typed          also reads amounts as typed, such as ⊗ 人民币：壹拾 伍元整
   --column N       reads a CSV table in UTF-8 from standard input, and appends a cell to each row:
                    the result for its Nth cell, or an empty cell if that is refused. Refused rows
                    go to standard error, with the row's number, which counts the header and blank
                    lines, and the reason
   --column NAME    converts the column that has this name in the header. A number from 1 to
                    999999999 is always N, even if a column has it as its name
   --header         says that the first row is a header
   --name TEXT      is the name of the new column; by default it is the column's name and _converted
   --delimiter ,    is the character between cells; $'\\t' is a tab
date     converts dates to capitals, 2026-01-15 to 贰零贰陆年零壹月壹拾伍日, and capitals to dates. Dates
         in figures can also be written 2026-1-15, 2026/1/15 or 2026年1月15日
read     reads numerals, 一百二 as 120
print    writes whole numbers as numerals, -120 as 负一百二十
   --upper          writes 壹佰贰拾 instead of 一百二十
find     writes LINE:CHARACTER TEXT NUMBER for each quantity in standard input, such as 3.5万, -5,
         12.5% and 三分之一, or err and the reason if it is refused. LINE and CHARACTER count from 1.
         NUMBER is exact, such as 125/1000
   --numbers        finds whole numbers instead: 3 and 5万 in 3.5万
replace  writes the arguments, or standard input, with their numerals in figures, 市值三点五亿元 as
         市值3.5亿元
   --phrases        includes dates, times, durations, ranges, scores, lengths and sums of money:
                    一月五日下午三点半，三块五 becomes 1月5日下午3点半，3块5
   --about          includes approximate numbers, as in 三百多
   --one-character  includes numbers of one Chinese character, as in 一般
   --doubtful       includes numbers that may mean something else, as 五一
   --expanded       writes out 万, 亿 and so on: 三点五亿 becomes 350000000
   --canonical      removes commas and leading zeros from figures: 1,280 becomes 1280
   --compact        writes dates, times and halves as short as possible, 2026-01-05, 15:30 and 1.5小时;
                    --phrases is not needed then
   --codes          also writes codes, such as telephone numbers: 打幺幺零 becomes 打110; --phrases is
                    not needed then
speak    writes the arguments, or standard input, as they are spoken: 15:30到，共2.5kg as
         十五点三十分到，共二点五千克
   --yao            says 幺 for 1 in codes, such as telephone numbers
lines    answers each line of standard input: read u64 ten_thousand 一百二 with ok 120,
         print u128 naive traditional lower 123 with ok 一二三, and what is no question with bad line

Options of several commands:
   --traditional    writes traditional characters
   --all            also finds cheque characters and units above 兆
   --kind i128      is the integer type that a number must fit: u8, u16, u32, u64, u128, i8, i16,
                    i32, i64 or i128
   --way any        is how a number is written: digits, as 一二三; with units, as 一百二十三, by the scale
                    low, ten_thousand, middle or high, which differ in the units above 万; or any,
                    which reads digits and ten_thousand
   --method any     is any way except digits
   --language en    is the language of the reasons for refusals: en, zh-Hans or zh-Hant
Arguments after -- are not options.

A refusal names the word, line or row and says why; its position counts characters from 1. The exit
status is 0 if everything was converted, 1 if something was refused or could not be read or written,
and 2 if the command line is not valid or the table has no such column. Refusals that find writes do
not change its status.
`;

// Each command: its options, and the function that runs it.
const COMMANDS = {
  amount: {
    options: {
      traditional: FLAG, currency: FLAG,
      yuan: wordsFor(['元', '圆']), closing: wordsFor(['整', '正']),
      signed: FLAG, 'bracketed-sign': FLAG, typed: FLAG, language: LANGUAGE,
      column: COLUMN, header: FLAG, name: NAME, delimiter: DELIMITER,
    },
    run: answerAmounts,
  },
  date: {
    options: { traditional: FLAG, language: LANGUAGE },
    run: (options, words, language) =>
      answerEach(words, language, (word) => answerDate(word, options, language)),
  },
  read: {
    options: { kind: KIND, way: WAY, language: LANGUAGE },
    run: (options, words, language) =>
      answerEach(words, language, (word) => toBigInt(word, options)),
  },
  print: {
    options: { traditional: FLAG, upper: FLAG, kind: KIND, way: WAY, language: LANGUAGE },
    run: ({ upper, ...options }, words, language) => {
      const all = { ...options, case: upper ? 'upper' : 'lower' };
      return answerEach(words, language, (number) => toChinese(number, all), wholeOf);
    },
  },
  find: {
    options: { numbers: FLAG, all: FLAG, kind: KIND, way: WAY, method: METHOD },
    run: findInInput,
  },
  replace: {
    options: {
      phrases: FLAG, all: FLAG, method: METHOD, about: FLAG, 'one-character': FLAG, doubtful: FLAG,
      expanded: FLAG, canonical: FLAG, compact: FLAG, codes: FLAG,
    },
    run: ({
      phrases, compact, codes, all, 'one-character': oneCharacter, ...options
    }, words, language) => {
      const choices = { ...options, ...wantedBy(all), oneCharacter };
      const anew = (text) => (phrases || compact || codes
        ? textToFigures(text, { ...choices, compact, codes }) : quantitiesToFigures(text, choices));
      return words.length ? answerEach(words, language, anew) : replaceInInput(anew);
    },
  },
  speak: {
    options: { traditional: FLAG, method: METHOD, yao: FLAG },
    run: (options, words, language) => {
      const anew = (text) => textToSpeech(text, options);
      return words.length ? answerEach(words, language, anew) : replaceInInput(anew);
    },
  },
  lines: { options: {}, run: (options, words) => answerLines(words) },
};

// The reasons for refusals that the library does not give, in each language.
const TEXTS = {
  below: {
    en: 'An amount below zero needs --signed.',
    'zh-Hans': '负数金额要加选项 --signed。',
    'zh-Hant': '負數金額要加選項 --signed。',
  },
  wrong: {
    en: 'Character {place}, “{there}”, is not allowed here. Write it like this: 2026-01-15.',
    'zh-Hans': '第{place}个字“{there}”不能写在这里。写法如：2026-01-15。',
    'zh-Hant': '第{place}個字「{there}」不能寫在這裡。寫法如：2026-01-15。',
  },
  day: {
    en: 'Month {month} of {year} has no day {day}.',
    'zh-Hans': '{year}年{month}月没有{day}日。',
    'zh-Hant': '{year}年{month}月沒有{day}日。',
  },
};

const textIn = (language, name, values = {}) =>
  TEXTS[name][language].replace(/\{(\w+)\}/g, (_, key) => values[key]);

// Splits the words after a command into its options, each with its value, and the other words.
// A hyphen before figures begins an argument, and after -- there are no options.
function parted(words, known) {
  const options = {}, rest = [...words], others = [];
  while (rest.length) {
    const word = rest.shift();
    if (word === '--') return { options, others: [...others, ...rest] };
    if (/^-[^0-9.¥￥０-９]/.test(word)) Object.assign(options, optionOf(word, rest, known));
    else others.push(word);
  }
  return { options, others };
}

// The option that a word sets. If it needs a value, that may be the next word.
function optionOf(word, rest, known) {
  const [, option, value] = /^([^=]*)(?:=(.*))?$/s.exec(word), name = option.slice(2);
  if (!option.startsWith('--') || !Object.hasOwn(known, name)) {
    throw new Misuse(`this command has no option ${option}`);
  }
  if (known[name] === FLAG) {
    if (value !== undefined) throw new Misuse(`${option} does not take a value`);
    return { [name]: true };
  }
  const chosen = value ?? rest.shift() ?? '';
  if (!known[name].has(chosen)) throw notOneOf(option, known[name].keys(), chosen);
  return { [name]: known[name].get(chosen) };
}

const isRefusal = (error) => error.code !== 'outOfMemory'
  && [NumeralError, AmountError, DateError, Refused].some((it) => error instanceof it);

// Prints the result of each word on a line of its own, and returns the status. The words are first
// converted to values.
function answerEach(words, language, answerOf, valueOf = String) {
  if (words.length === 0) throw new Misuse('an argument is expected');
  const values = words.map(valueOf);
  let status = 0;
  for (const [at, word] of words.entries()) {
    try {
      process.stdout.write(`${answerOf(values[at])}\n`);
    } catch (error) {
      if (!isRefusal(error)) throw error;
      process.stderr.write(`${refusalOf(word, error, language)}\n`);
      status = 1;
    }
  }
  return status;
}

function refuseWords(words) {
  if (words.length) throw new Misuse('standard input is read, so no argument is expected');
}

function wholeOf(word) {
  if (!/^-?[0-9]+$/.test(word)) {
    throw notOneOf('a number', ['digits with an optional leading -'], word);
  }
  return BigInt(word);
}

// Whether a word is treated as figures, also if it is refused. A parenthesis begins capitals, and a
// minus begins figures only with --signed: otherwise the reader of capitals refuses it.
const areFigures = (word) => /^[\0-')-,.-\x7f¥￥０-９]/.test(word);
const areSignedFigures = (word) => /^[\0-')-\x7f−¥￥０-９]/.test(word);
const padded = (number, digits) => String(number).padStart(digits, '0');

function figuresOf(fen) {
  const magnitude = fen < 0n ? -fen : fen;
  return `${fen < 0n ? '-' : ''}${magnitude / 100n}.${padded(magnitude % 100n, 2)}`;
}

// The call that reads capitals, for the options signed and typed.
const READERS = {
  '': chineseToAmountBigInt,
  signed: chineseToSignedAmountBigInt,
  typed: chineseToAmountAsTypedBigInt,
  'signed,typed': chineseToSignedAmountAsTypedBigInt,
};

// The function that converts amounts, in capitals to figures and in figures to capitals.
function amountsOf({ signed, typed, 'bracketed-sign': bracketedSign, ...form }, language) {
  const read = READERS[[signed && 'signed', typed && 'typed'].filter(Boolean).join()];
  const test = signed ? areSignedFigures : areFigures;
  return (word) => {
    try {
      return test(word.trimStart())
        ? signedAmountToChinese(yuanToFenBigInt(word), { ...form, bracketedSign })
        : figuresOf(read(word));
    } catch (error) {
      if (signed || !(error instanceof AmountError) || !isSigned(word, typed)) throw error;
      throw new Refused(textIn(language, 'below'));
    }
  };
}

// Whether --signed converts a word.
function isSigned(word, typed) {
  try {
    amountsOf({ signed: true, typed })(word);
    return true;
  } catch (error) {
    if (error instanceof AmountError) return false;
    throw error;
  }
}

function answerAmounts({ column, header, name, delimiter, ...options }, words, language) {
  if (column) refuseWords(words);
  else if (words.length === 0) throw new Misuse('an argument is expected');
  if (options['bracketed-sign'] && !options.signed) {
    throw new Misuse('--bracketed-sign needs --signed');
  }
  const answerOf = amountsOf(options, language);
  if (column) return answerTable({ column, header, name, delimiter }, language, answerOf);
  if (header || name || delimiter) {
    throw new Misuse('--header, --name and --delimiter need --column');
  }
  return answerEach(words, language, answerOf);
}

// A date in figures, and a prefix of one.
const NUMBER = '(?:[0-9]{1,2})';
const DATE = new RegExp('^[0-9]{4}(?:-D-D|/D/D|年D月D日)$'.replaceAll('D', NUMBER));
const PREFIX_OF_DATE = new RegExp(
  '^(?:[0-9]{4}(?:-(?:D(?:-D?)?)?|/(?:D(?:/D?)?)?|年(?:D(?:月(?:D日?)?)?)?)?|[0-9]{0,3})'
    .replaceAll('D', NUMBER));

// Why figures are not a date: only a prefix of them begins one, or all of them do.
function notADate(word, language) {
  const [{ length }] = PREFIX_OF_DATE.exec(word), [character] = word.slice(length);
  if (!character) return new DateError('unfinished');
  return new Refused(textIn(language, 'wrong', { place: length + 1, there: shown(character) }));
}

// Converts a date, in capitals to figures and in figures to capitals.
function answerDate(word, options, language) {
  if (/^[^\0-\x7f]/.test(word)) {
    const { year, month, day } = chineseToDate(word);
    return `${padded(year, 4)}-${padded(month, 2)}-${padded(day, 2)}`;
  }
  if (!DATE.test(word)) throw notADate(word, language);
  const [year, month, day] = word.match(/[0-9]+/g).map(Number);
  try {
    return dateToChinese({ year, month, day }, options);
  } catch (error) {
    if (error.code !== 'notADate' || year === 0 || month < 1 || month > 12) throw error;
    throw new Refused(textIn(language, 'day', { year, month, day }));
  }
}

// The lines of a stream of bytes: yields, for each piece, the lines that end in it.
async function* linesOf(stream) {
  let begun = [];
  for await (const piece of stream) {
    const lines = [];
    let at = 0;
    for (let end; (end = piece.indexOf(10, at)) >= 0; at = end + 1) {
      lines.push(Buffer.concat([...begun, piece.subarray(at, end + 1)]));
      begun = [];
    }
    begun.push(piece.subarray(at));
    yield lines;
  }
  const rest = Buffer.concat(begun);
  if (rest.length) yield [rest];
}

function input() {
  // node reads nothing from a folder, without an error.
  if (fstatSync(0).isDirectory()) throw new Error('standard input is a folder');
  return process.stdin;
}

async function write(answers) {
  if (answers.length && !process.stdout.write(answers)) {
    await new Promise((done) => process.stdout.once('drain', done));
  }
}

// Shows how many rows are done, if that takes more than a second and only standard error is a
// terminal.
class Progress {
  #next = process.stderr.isTTY && !process.stdout.isTTY ? Date.now() + 1000 : Infinity;
  #shown = '';

  show(rows) {
    if (Date.now() < this.#next) return;
    this.#next = Date.now() + 200;
    this.#shown = `\r${rows} rows`;
    process.stderr.write(this.#shown);
  }

  wipe() {
    if (this.#shown) process.stderr.write(`\r${' '.repeat(this.#shown.length)}\r`);
    this.#shown = '';
  }
}

// Converts a column of the table in standard input, and returns the status.
async function answerTable({ column, header, name, delimiter = ',' }, language, answerOf) {
  const isNumber = /^[1-9][0-9]{0,8}$/.test(column), isHeaded = header || !isNumber;
  if (name && !isHeaded) throw new Misuse('--name needs --header, or --column with a name');
  const asked = { column: isNumber ? Number(column) : column, isHeaded, delimiter, name, language };
  const table = new Table(asked, answerOf), progress = new Progress();
  const tell = (message) => {
    if (message) progress.wipe();
    process.stderr.write(message);
  };
  for await (const lines of linesOfTable(input())) {
    try {
      await write(table.answered(lines));
    } finally {
      tell(table.messages());
    }
    progress.show(table.rows);
  }
  await write(table.end());
  progress.wipe();
  const { rows, refused } = table;
  tell(`${table.messages()}${rows} rows: ${rows - refused} converted, ${refused} refused\n`);
  return refused ? 1 : 0;
}

function answerFound(found, answerOf) {
  try {
    return answerOf(found);
  } catch (error) {
    if (!isRefusal(error)) throw error;
    return `err ${error.message}`;
  }
}

// The output for a line: one line for each run that is found in it.
function answersTo(bytes, line, find, answerOf) {
  if (!isUtf8(bytes)) return `${line}:1 bad line\n`;
  const text = bytes.toString();
  let answers = '', column = 1, at = 0;
  for (const found of find(text)) {
    for (const _ of text.slice(at, found.start)) column++;
    answers += `${line}:${column} ${found.text} ${answerFound(found, answerOf)}\n`;
    at = found.start;
  }
  return answers;
}

const wantedBy = (all) => (all ? { upper: true, greatest: 'ji' } : {});

function exactOf(quantity) {
  const { numerator, denominator } = quantity;
  return denominator === 1n ? `${numerator}` : `${numerator}/${denominator}`;
}

function refuseMisfits({ numbers, method, kind, way }) {
  if (numbers && method) throw new Misuse('--numbers and --method cannot be used together');
  if (!numbers && (kind || way)) throw new Misuse('--kind and --way need --numbers');
}

async function findInInput({ all, ...options }, words) {
  refuseWords(words);
  refuseMisfits(options);
  const { numbers, method, ...form } = options, wanted = wantedBy(all);
  const find = numbers ? findNumbers : findQuantities;
  const answerOf = numbers ? (found) => found.bigInt({ kind: 'u128', ...form })
    : (found) => exactOf(found.quantity({ method }));
  let count = 0;
  for await (const lines of linesOf(input())) {
    const answers = lines.map(
      (it) => answersTo(it, ++count, (text) => find(text, wanted), answerOf));
    await write(answers.join(''));
  }
  return 0;
}

// Rewrites standard input line by line. A line that is not UTF-8 stays, and is reported.
async function replaceInInput(anew) {
  let count = 0, status = 0;
  const answerTo = (bytes) => {
    count++;
    if (isUtf8(bytes)) return Buffer.from(anew(bytes.toString()));
    const text = bytes.toString().replace(/[\r\n]+$/, '');
    process.stderr.write(`line ${count}: ${shown(text)}: the line is not UTF-8\n`);
    status = 1;
    return bytes;
  };
  for await (const lines of linesOf(input())) await write(Buffer.concat(lines.map(answerTo)));
  return status;
}

// Answers the lines of standard input, as the program `numeral` does.
async function answerLines(words) {
  refuseWords(words);
  const answerTo = (line) => `${answerLine(line.at(-1) === 10 ? line.subarray(0, -1) : line)}\n`;
  for await (const lines of linesOf(input())) await write(lines.map(answerTo).join(''));
  return 0;
}

// Runs a command, and returns the status.
async function run(name, words) {
  if (!Object.hasOwn(COMMANDS, name)) throw notOneOf('the command', Object.keys(COMMANDS), name);
  const command = COMMANDS[name];
  const { options, others } = parted(words, { ...command.options, help: FLAG });
  const { help, traditional, language = 'en', ...rest } = options;
  const asked = traditional ? { ...rest, script: 'traditional' } : rest;
  if (!help) return command.run(asked, others, language);
  process.stdout.write(USAGE);
  return 0;
}

// Reports a failure to write, unless the reader has closed the pipe.
function endOf(error) {
  if (error.code !== 'EPIPE') process.stderr.write(`chinese-number: ${error.message}\n`);
  process.exit(1);
}

async function main([name = '', ...words]) {
  for (const it of [process.stdout, process.stderr]) it.on('error', endOf);
  try {
    if (name === '--version') process.stdout.write(`chinese-number ${VERSION}\n`);
    else if (name === '--help') process.stdout.write(USAGE);
    else process.exitCode = await run(name, words);
  } catch (error) {
    if (!(error instanceof Misuse)) endOf(error);
    process.stderr.write(`chinese-number: ${error.message} (see --help)\n`);
    process.exitCode = 2;
  }
}

await main(process.argv.slice(2));
