// A form whose field is checked at each key. Below the field are the rows of the result, or the
// reason why there is none, and a mirror over it marks the wrong character. What was typed enters
// the page only as text, through textContent and the strings of append and replaceChildren.

import { words } from './language.mjs';

/** A text of more code units has no marks, since its mirror would take too long at each key. */
export const MOST_MARKED = 2000;

export function element(name, ...parts) {
  const it = document.createElement(name);
  it.append(...parts);
  return it;
}

/** A button that copies a text, which it computes when it is pressed; `name` describes the text. */
export function copyButton(name, textOf) {
  const button = element('button');
  button.type = 'button';
  const label = (key) => {
    button.textContent = words(key);
    button.ariaLabel = `${words(key)} ${name}`;
  };
  label('copy');
  button.addEventListener('click', async () => {
    try {
      await navigator.clipboard.writeText(textOf());
      label('copied');
      setTimeout(label, 2000, 'copy');
    } catch {
      // A page without https has no clipboard: the user can copy the selected text.
      const shown = button.previousElementSibling;
      if (shown.textContent === '') shown.textContent = textOf();
      getSelection().selectAllChildren(shown);
    }
  });
  return button;
}

function row({ name, text, lang }) {
  const value = element('span', text);
  value.lang = lang ?? '';
  return [element('dt', name), element('dd', value, copyButton(name, () => text))];
}

/** A text in parts, of which the wrong one, if any, is an element. */
export function partsAround(text, fault, name) {
  if (!fault) return [text];
  const { start, end } = fault;
  return [text.slice(0, start), element(name, text.slice(start, end)), text.slice(end)];
}

/**
 * Shows a message. An unchanged one is not written again, so screen readers do not repeat it. The
 * form of a field with a refused text reports the message, as forms do.
 */
export function say(field, output, said, isFault, isRefused = isFault) {
  if (output.textContent !== said) output.textContent = said;
  output.classList.toggle('fault', isFault);
  field.ariaInvalid = String(isFault);
  field.setCustomValidity(isRefused ? said : '');
}

/** Calls one function at each change of a field's text, another while an input method composes. */
export function atEachKey(field, judge, compose) {
  field.addEventListener('input', (event) => (event.isComposing ? compose : judge)());
  field.addEventListener('compositionend', judge);
}

/**
 * Checks a form's field at each key. `judge` gets what was typed and returns its `rows`, the
 * message `said`, and the place of the character that it names as `fault`; `isFault` says that the
 * text is wrong without such a place. Returns the function that checks the field's text.
 */
export function judgeForm(form, judge) {
  const [field, mirror, output, select, list] =
    ['input', '.mirror', 'output', '.select', 'dl'].map((it) => form.querySelector(it));
  let place, shown;

  const follow = () => {
    mirror.scrollLeft = field.scrollLeft;
  };
  const mark = (fault) => {
    const isMarked = fault && field.value.length <= MOST_MARKED;
    mirror.replaceChildren(...(isMarked ? partsAround(field.value, fault, 'mark') : []));
    if (isMarked) follow();
  };

  function judgeAgain() {
    const { rows = [], said = '', fault, isFault = Boolean(fault) } = judge(field.value);
    place = fault;
    say(field, output, said, isFault, rows.length === 0);
    select.hidden = !place;
    mark(place);
    const seen = JSON.stringify([words('copy'), rows]);
    if (seen !== shown) list.replaceChildren(...rows.flatMap(row));
    shown = seen;
  }

  // While an input method composes, its letters are not text yet: nothing is checked or marked.
  atEachKey(field, judgeAgain, () => mark());
  for (const it of ['scroll', 'keyup', 'pointerup', 'select']) field.addEventListener(it, follow);
  // Enter and the button submit the form. It reports a refused text, and the wrong character is
  // selected, or the caret moves before it. Nothing else moves the caret.
  field.addEventListener('invalid', () => {
    if (!place) return;
    field.focus();
    field.setSelectionRange(place.start, place.isBefore ? place.start : place.end);
  });
  return judgeAgain;
}
