// Starts the page. Its texts appear before the library has loaded, and report if it fails to load.

import { speak, switchInPlace, words } from './language.mjs';

const loading = document.getElementById('loading');
speak();
try {
  const { judgeAll } = await import('./forms.mjs');
  switchInPlace(judgeAll);
  // For what was typed while the library loaded.
  judgeAll();
  loading.hidden = true;
} catch (error) {
  loading.textContent = words('loadFailed', error);
  throw error;
}
