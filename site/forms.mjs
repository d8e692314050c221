// The forms of the page, each with the function that checks its field.

import { readAmount, writeAmount } from './amounts.mjs';
import { readDate, writeDate } from './dates.mjs';
import { judgeForm } from './field.mjs';
import { offerChoices, readNumber, writeNumber } from './numbers.mjs';
import { offerCopy, search } from './search.mjs';

const { forms } = document;
const judgeAmount = judgeForm(forms.writingAmounts, writeAmount);
const judgeNumbers = [
  judgeForm(forms.writingNumerals, writeNumber), judgeForm(forms.readingNumerals, readNumber),
  search,
];
const judges = [
  judgeAmount, judgeForm(forms.readingAmounts, readAmount),
  judgeForm(forms.writingDates, writeDate), judgeForm(forms.readingDates, readDate),
  ...judgeNumbers,
];

for (const it of forms) it.addEventListener('submit', (event) => event.preventDefault());
// After a choice changes, the fields that it affects are checked again.
forms.writingAmounts.addEventListener('change', judgeAmount);
document.getElementById('choosing').addEventListener('change', () => {
  for (const it of judgeNumbers) it();
});

/** Checks the texts of all fields, in the language of the page. */
export function judgeAll() {
  offerChoices();
  offerCopy();
  for (const it of judges) it();
}
