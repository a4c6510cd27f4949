// Runs a program of WebAssembly that tiny.c is linked to: node wasm.js PROGRAM.wasm. Text goes to standard output; the exit status is the
// program's, and 1 with a line if it steps out of its memory.
const fs = require('fs');

let memory;
let text = '';
class Ended extends Error {}
const board = {
    tiny_write: (at, length) => { text += Buffer.from(memory.buffer, at >>> 0, length >>> 0).toString('latin1'); },
    tiny_exit: (status) => { process.exitCode = status; throw new Ended(); },
};

WebAssembly.instantiate(fs.readFileSync(process.argv[2]), { env: board }).then(({ instance }) => {
    memory = instance.exports.memory;
    try {
        instance.exports.begin();
    } catch (e) {
        if (!(e instanceof Ended)) {
            text += `the board faulted: ${e.message}\n`;
            process.exitCode = 1;
        }
    }
    fs.writeSync(1, text);
});
