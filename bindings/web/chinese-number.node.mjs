// What node imports: the module that it requires, so that a program which does both has one.
export * from './chinese-number.cjs';
