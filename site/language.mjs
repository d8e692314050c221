// The language of the page: that of the address, such as ?lang=zh-Hans, otherwise the first
// language of the browser that the page has, otherwise English.

import { LANGUAGES, TEXTS } from './texts.mjs';

/** The page's language for a tag, such as zh-Hant for zh-TW; undefined if there is none. */
function languageOf(tag) {
  try {
    const { language, script } = new Intl.Locale(tag).maximize();
    const name = language === 'zh' ? `zh-${script}` : language;
    return LANGUAGES.includes(name) ? name : undefined;
  } catch {
    return undefined;
  }
}

const requested = new URLSearchParams(location.search).get('lang');
let current = [requested, ...navigator.languages].map(languageOf).find(Boolean) ?? 'en';

/** The language of the page, which the library has too. */
export const language = () => current;

/** A text in the language of the page, with the names in braces replaced by values. */
export const words = (key, values = {}) =>
  TEXTS[key][LANGUAGES.indexOf(current)].replace(/\{(\w+)\}/g, (_, name) => values[name]);

/** Sentences, or parts of one, as one text. */
export const sentences = (...parts) => parts.filter(Boolean).join(current === 'en' ? ' ' : '');

const LANGUAGE_OF = { simplified: 'zh-Hans', traditional: 'zh-Hant' };

/** The scripts, beginning with that of the page's language. */
export const scripts = () =>
  (current === 'zh-Hant' ? ['traditional', 'simplified'] : ['simplified', 'traditional']);

/** The rows of a text in each script. `more` is a suffix of the keys of their names. */
export const inEachScript = (textOf, more = '') => scripts().map((script) =>
  ({ name: words(script + more), text: textOf(script), lang: LANGUAGE_OF[script] }));

/** Writes the texts into the page. */
export function speak() {
  document.documentElement.lang = current;
  document.title = words('title');
  document.querySelector('meta[name=description]').content = words('description');
  for (const it of document.querySelectorAll('[data-text]')) {
    it.textContent = words(it.dataset.text);
  }
  for (const it of document.querySelectorAll('[data-placeholder]')) {
    it.placeholder = words(it.dataset.placeholder);
  }
  const switches = document.getElementById('languages');
  switches.ariaLabel = words('language');
  for (const it of switches.children) it.ariaCurrent = String(it.lang === current);
}

/** Makes the language links switch in place, and calls a function after that. */
export function switchInPlace(switched) {
  document.getElementById('languages').addEventListener('click', (event) => {
    const { lang, href } = event.target;
    if (!href || event.ctrlKey || event.metaKey || event.shiftKey) return;
    event.preventDefault();
    history.replaceState(null, '', href);
    current = lang;
    speak();
    switched();
  });
}
