// The library, which the page takes from the package for JavaScript.

export * from '../bindings/web/files/chinese-number.mjs';
