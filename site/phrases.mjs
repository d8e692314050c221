// The phrases of a text, such as dates and times, in the words of the page.

import { sentences, words } from './language.mjs';

const twoDigits = (number) => String(number).padStart(2, '0');
const fromTo = (ends) => ends.join('–');
const figuresOf = (quantity) => quantity.toFigures();
const clock = (hours, minutes, seconds) => [hours, ...[minutes, seconds].map(twoDigits)].join(':');

/** The value of each kind of phrase in figures. */
const FIGURES = {
  date: (date) =>
    sentences(...Object.entries(date).map(([part, value]) => words(part, { value }))),
  years: fromTo,
  months: fromTo,
  days: fromTo,
  time: ({ hour, minute, second, hourOfDay = hour }) => clock(hourOfDay, minute, second),
  duration: ({ hours, minutes, seconds }) => clock(hours, minutes, seconds),
  half: figuresOf,
  length: figuresOf,
  score: (numbers) => numbers.join(':'),
  range: (ends) => fromTo(ends.map(figuresOf)),
  money: figuresOf,
};

/** The kind and the value of a phrase in words, or that there is none. A sum may have parts of a fen. */
export function wordsOf({ kind: name, state, value }) {
  const kind = words(`phrase_${name}`);
  if (state === 'refused') return words('phraseRefused', { kind });
  const shown = value === null ? kind : words('phrase', { kind, value: FIGURES[name](value) });
  return state === 'doubtful' ? words('valueDoubtful', { value: shown }) : shown;
}
