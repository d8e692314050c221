import * as it from 'chinese-number-proved/files';
console.log(Object.keys(it).sort().join(), it.toNumber('十万五'), it.toChinese(120));
