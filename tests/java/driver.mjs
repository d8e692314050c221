// Calls the functions of random modules with the same arguments as Driver.java, and prints as it does.
import { readFileSync } from 'node:fs';

const ARGUMENTS = [
  [0, 0n], [1, -1n], [-1, 3n], [7, 2n ** 63n - 1n], [-(2 ** 31), 1n << 32n], [12345678, -987654321987n],
];
const FIRST = 65536;

// A sum of 64 bits of the bytes after the stack.
function sumOf(bytes) {
  let low = 0, high = 0;
  for (let at = FIRST; at < bytes.length; at++) {
    const next = low * 31 + bytes[at];
    high = (high * 31 + Math.floor(next / 2 ** 32)) % 2 ** 32;
    low = next % 2 ** 32;
  }
  return BigInt.asIntN(64, BigInt(high) << 32n | BigInt(low));
}

for (const [number, path] of process.argv.slice(2).entries()) {
  const { exports } = new WebAssembly.Instance(new WebAssembly.Module(readFileSync(path)));
  const bytes = new Uint8Array(exports.memory.buffer);
  for (const name of Object.keys(exports).filter((it) => it.startsWith('chinese_')).sort()) {
    for (const [one, other] of ARGUMENTS) {
      console.log(number, name, String(exports[name](one, other)), String(sumOf(bytes)));
    }
  }
}
