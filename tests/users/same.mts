// Each kind of the one is one of the other: what tsc makes of the JSDoc, and what is packed.
import type * as made from '../types/chinese-number.mjs';
import type * as packed from 'chinese-number-proved';
declare const one: typeof made, other: typeof packed;
export const back: typeof packed = one, forth: typeof made = other;
