const { toBigInt } = require('chinese-number-proved');
console.log(toBigInt('一'));
