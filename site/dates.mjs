// Dates of bills: figures to capitals, and capitals to figures.

import { chineseToDate, dateToChinese } from './library.mjs';
import { inEachScript, sentences, words } from './language.mjs';
import {
  answerTyped, inUsualWidth, reasonOf, sayUnfinished, sayWhere, withoutSpace,
} from './typed.mjs';

const DATE = /^(\d{4})[-/.年](\d{1,2})[-/.月](\d{1,2})日?$|^(\d{4})(\d\d)(\d\d)$/;
const BEGUN = /^\d{0,8}$|^\d{4}[-/.年](\d{0,2}|\d{1,2}[-/.月](\d{0,2}|\d{1,2}日))$/;

/** The date that was typed in figures, in capitals. */
export function writeDate(typed) {
  const { text, placeOf } = withoutSpace(inUsualWidth(typed)), numbers = text.match(DATE);
  if (numbers) return capitalsOf(...numbers.slice(1).filter(Boolean).map(Number));
  if (BEGUN.test(text)) return text === '' ? {} : { said: sayUnfinished() };
  let start = 0;
  while (BEGUN.test(text.slice(0, start + 1))) start++;
  const [{ length }] = text.slice(start), fault = placeOf({ start, end: start + length });
  return { said: sentences(sayWhere(typed, fault), words('dateOrder')), fault };
}

function capitalsOf(year, month, day) {
  try {
    return { rows: inEachScript((script) => dateToChinese({ year, month, day }, { script })) };
  } catch (error) {
    const isMonth = error.code === 'notADate' && year > 0 && month > 0 && month < 13;
    const said = isMonth ? words('noDay', { year, month, day }) : reasonOf(error);
    return { said, isFault: true };
  }
}

const padded = (number, digits) => String(number).padStart(digits, '0');
const figuresOf = ({ year, month, day }) =>
  `${padded(year, 4)}-${padded(month, 2)}-${padded(day, 2)}`;

/** The date that was typed in capitals, in figures. */
export const readDate = (typed) => answerTyped(typed, {
  input: 'date',
  textOf: withoutSpace,
  read: chineseToDate,
  answer: (date) => ({ rows: [{ name: words('date'), text: figuresOf(date) }] }),
});
