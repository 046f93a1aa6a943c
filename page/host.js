// One run of the unproved program, and its host: the arguments, the files that the page holds, and two outputs.

class Pieces {
  constructor() {
    this.all = [];
    this.length = 0;
  }

  add(piece) {
    this.all.push(piece);
    this.length += piece.length;
  }

  bytes() {
    const whole = new Uint8Array(this.length);
    let at = 0;
    for (const piece of this.all) {
      whole.set(piece, at);
      at += piece.length;
    }
    return whole;
  }
}

class Host {
  constructor(words, files) {
    this.words = words;
    this.files = new Map(Object.entries(files));
    this.opened = [];
    this.out = new Pieces();
    this.err = new Pieces();
  }

  bytes(at, count) { return new Uint8Array(this.memory.buffer, Number(at), Number(count)); }

  // Copies as many bytes as fit. Returns the length, or -2 if not all bytes fit.
  copy(from, to, room) {
    const fits = from.subarray(0, Number(room));
    this.bytes(to, fits.length).set(fits);
    return BigInt(fits.length === from.length ? from.length : -2);
  }

  // Opens a file. Returns its descriptor, 3 or larger, or -1 if no file has this name.
  open(name) {
    const all = new Uint8Array(this.memory.buffer, Number(name));
    const bytes = this.files.get(new TextDecoder().decode(all.slice(0, all.indexOf(0))));
    return bytes ? this.opened.push({ bytes, at: 0 }) + 2 : -1;
  }

  read(number, to, room) {
    const file = this.opened[number - 3];
    if (!file) return -1n;
    const piece = file.bytes.subarray(file.at, file.at + Number(room));
    file.at += piece.length;
    return this.copy(piece, to, room);
  }

  write(number, from, count) {
    (number === 1 ? this.out : this.err).add(this.bytes(from, count).slice());
    return count;
  }

  imports() {
    return {
      argument: (i, to, room) => i < this.words.length ? this.copy(this.words[Number(i)], to, room) : -1n,
      open: name => this.open(name),
      read: (number, to, room) => this.read(number, to, room),
      write: (number, from, count) => this.write(number, from, count),
    };
  }
}

export async function runProgram(module, words, files) {
  const encoder = new TextEncoder();
  const host = new Host([encoder.encode('jobk'), ...words], files);
  const instance = await WebAssembly.instantiate(module, { page: host.imports() });
  host.memory = instance.exports.memory;
  let status = -1;
  try {
    status = instance.exports.program();
  } catch (error) {
    host.err.add(encoder.encode(`jobk: ${error.message}\n`));
  }
  return { status, out: host.out.bytes(), err: host.err.bytes() };
}
