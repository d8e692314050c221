// CSV tables, of which one column is converted. Their texts are strings of bytes (latin1), so that
// each byte is written as it was read. Only one row is kept in memory.

import { isUtf8 } from 'node:buffer';

import { AmountError } from './chinese-number.mjs';

// A longer row, in bytes, has a quote that is not closed.
const MOST_OF_ROW = 2 ** 17;
// How many characters of a text a message has.
const MOST_SHOWN = 40;

// The command line is not valid.
export class Misuse extends Error {}

// A word or a cell is refused for a reason that the library does not give.
export class Refused extends Error {
  messageIn() {
    return this.message;
  }
}

// A text as messages show it: the beginning of a long one, and all on one line.
export function shown(text) {
  const characters = [...text], isLong = characters.length > MOST_SHOWN;
  const begun = isLong ? `${characters.slice(0, MOST_SHOWN).join('')}…` : text;
  return begun.replace(/[\0-\x1f\x7f-\x9f]/g, ' ') || "''";
}

// The message for a refused word or cell.
export const refusalOf = (text, error, language) => `${shown(text)}: ${error.messageIn(language)}`;

const inBytes = (text) => Buffer.from(text).toString('latin1');
const textOf = (bytes) => Buffer.from(bytes, 'latin1').toString();

// The lines of a stream, each with its line end: yields, for each piece, the lines that end in it.
export async function* linesOfTable(stream) {
  let begun = '', held = '';
  for await (const piece of stream) {
    let text = held + piece.toString('latin1');
    // Its line feed may be in the next piece.
    held = text.endsWith('\r') ? '\r' : '';
    if (held) text = text.slice(0, -1);
    const lines = text.split(/(?<=\n|\r(?!\n))/);
    const rest = /[\r\n]$/.test(text) ? '' : lines.pop();
    if (lines.length) [lines[0], begun] = [begun + lines[0], ''];
    begun += rest;
    yield lines;
  }
  if (begun + held) yield [begun + held];
}

// Reads the cells of each row, line by line. By RFC 4180 a cell may begin with a quote: then it
// ends at the next quote that is not doubled, and may contain delimiters and line ends. Elsewhere a
// quote is an ordinary character.
class RowReader {
  cells = []; // of the row, as far as it was read
  isBroken = false; // whether the row is not CSV, which is so until a quote is closed
  isUtf8 = true; // whether the row is UTF-8
  isEnd = true; // whether the row ends with the line
  #delimiter;
  #size = 0;

  constructor(delimiter) {
    this.#delimiter = delimiter;
  }

  // Reads a line, whose line end is a separate argument.
  read(line, end) {
    if (this.isEnd) {
      Object.assign(this, { cells: [''], isBroken: false, isUtf8: true });
      this.#size = 0;
    }
    this.isEnd = true;
    this.isUtf8 &&= isUtf8(Buffer.from(line, 'latin1'));
    this.#size += line.length + end.length;
    let at = 0;
    while (at <= line.length) {
      const isQuoted = this.isBroken || line[at] === '"';
      at = isQuoted ? this.#readQuoted(line, at, end) : this.#readBare(line, at);
    }
  }

  #add(text) {
    this.cells[this.cells.length - 1] += text;
  }

  // These return where the next cell begins, or past the line's length if the line has no more.

  #readBare(line, at) {
    const found = line.indexOf(this.#delimiter, at), end = found < 0 ? line.length : found;
    this.#add(line.slice(at, end));
    return this.#readDelimiter(line, end);
  }

  #readDelimiter(line, at) {
    if (at === line.length) return at + 1;
    this.cells.push('');
    return at + this.#delimiter.length;
  }

  #readQuoted(line, at, lineEnd) {
    if (!this.isBroken) [this.isBroken, at] = [true, at + 1];
    let end = line.indexOf('"', at);
    while (end >= 0 && line[end + 1] === '"') end = line.indexOf('"', end + 2);
    const inside = end < 0 ? line.slice(at) + lineEnd : line.slice(at, end);
    this.#add(inside.replaceAll('""', '"'));
    this.isEnd = end >= 0 || this.#size > MOST_OF_ROW;
    this.isBroken = end < 0 || !this.#isBetweenCells(line, end + 1);
    return this.isBroken ? line.length + 1 : this.#readDelimiter(line, end + 1);
  }

  #isBetweenCells(line, at) {
    return at === line.length || line.startsWith(this.#delimiter, at);
  }
}

// Converts a column of a table. The column is a number or a name; the name of the new column, if it
// is undefined, is made of the column's.
export class Table {
  rows = 0;
  refused = 0;
  #messages = '';
  #row = 0; // how many rows have been read, with the header and blank lines
  #line = 0;
  #first = 1; // the line where the row begins
  #text = ''; // the row as far as it was read
  #isHeaded;
  #column;
  #name;
  #delimiter;
  #language;
  #reader;
  #answerOf;
  #place = 0; // the index of the column
  #width = 0; // how many cells the first row has that is read

  constructor({ column, isHeaded, delimiter, name, language }, answerOf) {
    this.#column = column;
    this.#isHeaded = isHeaded;
    this.#name = name;
    this.#delimiter = inBytes(delimiter);
    this.#language = language;
    this.#reader = new RowReader(this.#delimiter);
    this.#answerOf = answerOf;
  }

  // The output for lines: each row with one more cell at its end. Blank lines are not converted.
  answered(lines) {
    return Buffer.from(lines.map((it) => this.#answeredLine(it)).join(''), 'latin1');
  }

  // The output after the last line, for a row whose quote is not closed.
  end() {
    return this.#reader.isEnd ? '' : this.#answeredRow();
  }

  // The messages about the rows since the last call.
  messages() {
    const messages = this.#messages;
    this.#messages = '';
    return messages;
  }

  #answeredLine(line) {
    const body = line.replace(/[\r\n]+$/, ''), end = line.slice(body.length);
    this.#line++;
    // The mark of UTF-8 at the start of a table is not part of a cell.
    const text = this.#line === 1 ? body.replace(/^ï»¿/, '') : body;
    if (this.#reader.isEnd && text === '') {
      this.#row++;
      this.#first = this.#line + 1;
      return line;
    }
    this.#reader.read(text, end);
    this.#text += line;
    return this.#reader.isEnd ? this.#answeredRow() : '';
  }

  // The row with one more cell before its line end.
  #answeredRow() {
    const row = this.#text;
    let { length } = row;
    while (row[length - 1] === '\n' || row[length - 1] === '\r') length--;
    this.#text = '';
    return row.slice(0, length) + this.#nextCell() + row.slice(length);
  }

  // The cell at the end of a row, with the delimiter before it.
  #nextCell() {
    this.#row++;
    const cell = inBytes(this.#newCell()), isQuoted = /["\r\n]/.test(cell);
    this.#first = this.#line + 1;
    if (!isQuoted && !cell.includes(this.#delimiter)) return this.#delimiter + cell;
    return `${this.#delimiter}"${cell.replaceAll('"', '""')}"`;
  }

  #newCell() {
    const { cells, isBroken, isUtf8 } = this.#reader;
    const fault = isBroken ? 'the row is not CSV' : isUtf8 ? '' : 'the row is not UTF-8';
    if (!this.#width && (!fault || typeof this.#column === 'string')) this.#findColumn(fault);
    const isHeader = this.#isHeaded && !fault;
    this.#isHeaded = false;
    if (isHeader) return this.#name ?? nameAfter(textOf(cells[this.#place]));
    this.rows++;
    if (fault) return this.#refuse(fault);
    if (cells.length !== this.#width) {
      return this.#refuse(`the row has ${cells.length} cells, and the first has ${this.#width}`);
    }
    const text = textOf(cells[this.#place]);
    try {
      return this.#answerOf(text);
    } catch (error) {
      if (!(error instanceof AmountError || error instanceof Refused)) throw error;
      return this.#refuse(refusalOf(text, error, this.#language));
    }
  }

  // Finds the column in the row that was read last.
  #findColumn(fault) {
    const { cells } = this.#reader, column = this.#column, where = `row ${this.#row}`;
    this.#width = cells.length;
    if (typeof column === 'number') {
      this.#place = column - 1;
      if (column <= cells.length) return;
      throw new Misuse(`${where} has no column ${column}: it has ${cells.length} cells`);
    }
    const name = inBytes(column), count = fault ? 0 : cells.filter((it) => it === name).length;
    this.#place = cells.indexOf(name);
    if (count === 1) return;
    if (count > 1) throw new Misuse(`${where} has ${count} columns ${shown(column)}: give a number`);
    const why = fault || `it is ${shown(textOf(cells.join(this.#delimiter)))}`;
    throw new Misuse(`${where} has no column ${shown(column)}: ${why}`);
  }

  #refuse(reason) {
    this.refused++;
    const line = this.#first === this.#row ? '' : `, line ${this.#first}`;
    this.#messages += `row ${this.#row}${line}: ${reason}\n`;
    return '';
  }
}

const nameAfter = (source) => (source ? `${source}_converted` : 'converted');
