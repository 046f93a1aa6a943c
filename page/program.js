// Runs jobk, compiled to WebAssembly. Each run has its own instance, so an aborted run doesn't affect later runs.

import { runProgram } from './host.js';
import { runLibrary } from './library.js';

const noMemories = 'this browser has no 64-bit WebAssembly memories; use Chrome 133, Firefox 134 or later';

// A module that only has a memory with 64-bit addresses.
const memory64 = Uint8Array.of(0, 0x61, 0x73, 0x6d, 1, 0, 0, 0, 5, 3, 1, 4, 1);

// Returns the module for this browser. A page may lack the module for 32-bit memories. Both modules are called with
// 64-bit addresses.
export async function moduleOf(bytesOfFile) {
  if (WebAssembly.validate(memory64)) return WebAssembly.compile(await bytesOfFile('jobk.wasm'));
  const bytes = await bytesOfFile('jobk32.wasm').catch(() => { throw new Error(noMemories); });
  return WebAssembly.compile(bytes);
}

const bytesOf = it => typeof it === 'string' ? new TextEncoder().encode(it) : it;

export class Program {
  // A module that exports `serve` is the library; any other is the program that `rt try` compiles.
  constructor(module) {
    this.module = module;
    this.isLibrary = WebAssembly.Module.exports(module).some(it => it.name === 'serve');
  }

  // Takes the arguments of a command line, and the files by name, as texts or bytes. The outputs are bytes. If the run
  // aborts, for example because the stack is too small, the status is -1.
  async run(words, files = {}) {
    const given = Object.fromEntries(Object.entries(files).map(([name, it]) => [name, bytesOf(it)]));
    const since = performance.now();
    const ran = await (this.isLibrary ? runLibrary : runProgram)(this.module, words.map(bytesOf), given);
    return { ...ran, ms: performance.now() - since };
  }
}
