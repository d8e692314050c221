// Writes the text that the module answers.
const built = new WebAssembly.Module(require('fs').readFileSync(process.argv[2]));
const { answers, memory } = new WebAssembly.Instance(built).exports;
const text = Buffer.from(memory.buffer).subarray(answers());
process.stdout.write(text.subarray(0, text.indexOf(0)));
