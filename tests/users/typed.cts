import { NumeralError, toNumber, type Kind } from 'chinese-number-proved';
const kind: Kind = 'u64', number: number = toNumber('一百二', { kind });
export const start = (error: NumeralError): number => error.start ?? number;
// @ts-expect-error: no such kind
toNumber('一', { kind: 'u7' });
