import * as it from 'chinese-number-proved';
console.log(Object.keys(it).sort().join(), it.toNumber('十万五'), it.toChinese(120));
