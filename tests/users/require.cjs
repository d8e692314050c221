const it = require('chinese-number-proved');
console.log(Object.keys(it).sort().join(), it.toNumber('十万五'), it.toChinese(120));
