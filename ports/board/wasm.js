// Runs a program that is a WebAssembly module: wasm.js FILE. It prints by `put`, and its status is what `main` gives.
const file = require("fs").readFileSync(process.argv[2]);
let text = "";
const put = (c) => { text += String.fromCharCode(c); };
const program = new WebAssembly.Instance(new WebAssembly.Module(file), { env: { put } });
process.exitCode = program.exports.main();
process.stdout.write(text);
