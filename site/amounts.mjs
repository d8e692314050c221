// Amounts of money: figures to capitals, and capitals to figures.

import {
  chineseToSignedAmountAsTypedBigInt, signedAmountToChinese, yuanToFenBigInt,
} from './library.mjs';
import { inEachScript, words } from './language.mjs';
import { answerTyped, withoutSpace } from './typed.mjs';

const { currency, roundYuan, uprightClosing, bracketedSign } =
  document.forms.writingAmounts.elements;

const capitalsOf = (fen, script) => signedAmountToChinese(fen, {
  script,
  currency: currency.checked,
  yuan: roundYuan.checked ? '圆' : '元',
  closing: uprightClosing.checked ? '正' : '整',
  bracketedSign: bracketedSign.checked,
});

/** Fen as yuan, with two decimals: 140950n as 1409.50. */
function yuanOf(fen) {
  const digits = String(fen < 0n ? -fen : fen).padStart(3, '0');
  return `${fen < 0n ? '-' : ''}${digits.slice(0, -2)}.${digits.slice(-2)}`;
}

// Only red invoices have negative amounts.
const note = (fen) => (fen < 0n ? words('belowZero') : '');

// Figures may end with 元, and have the point that input methods write, as people type them.
function figuresIn(typed) {
  const { text, placeOf } = withoutSpace(typed);
  return { text: text.replaceAll('。', '.').replace(/[元圆圓]$/, ''), placeOf };
}

/** The amount that was typed in figures, in capitals. */
export const writeAmount = (typed) => answerTyped(typed, {
  input: 'figures',
  textOf: figuresIn,
  read: yuanToFenBigInt,
  answer: (fen) => ({ rows: inEachScript((script) => capitalsOf(fen, script)), said: note(fen) }),
});

/** The amount that was typed in capitals, in figures. */
export const readAmount = (typed) => answerTyped(typed, {
  input: 'typedSignedAmount',
  read: chineseToSignedAmountAsTypedBigInt,
  answer: (fen) => ({ rows: [{ name: words('figures'), text: yuanOf(fen) }], said: note(fen) }),
});
