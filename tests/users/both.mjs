// What is imported is what is required.
import { createRequire } from 'node:module';
import { NumeralError } from 'chinese-number-proved';
const required = createRequire(import.meta.url)('chinese-number-proved');
console.log(required.NumeralError === NumeralError);
