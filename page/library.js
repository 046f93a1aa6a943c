// One run of the proved library. Its export is
//
//     serve(words: &[u8], trace: &[u8], world: &[u8], events: &[u8], key0: u64, key1: u64,
//           out: &mut [u8], out_count: &mut u64, told: &mut [u8], told_count: &mut u64) -> u8
//
// A zero byte terminates each word, the keys are random, `out` is standard output, and `told` is standard error. If an
// output needs more room than it has, nothing is written to it, and its count is the room that it needs. The library is
// then called again.

class Memory {
  constructor(instance) {
    this.memory = instance.exports.memory;
    this.room = instance.exports.room;
  }

  bytes(at, length) { return new Uint8Array(this.memory.buffer, Number(at), Number(length)); }

  // Returns a new slice of `length` bytes: its address and its length.
  slice(length) {
    const at = this.room(BigInt(Math.max(length, 8)));
    if (at === 0n) throw new Error('no memory');
    return [at, BigInt(length)];
  }

  copy(bytes) {
    const slice = this.slice(bytes.length);
    this.bytes(...slice).set(bytes);
    return slice;
  }

  number(at) { return Number(new DataView(this.memory.buffer).getBigUint64(Number(at), true)); }
}

function joined(words) {
  const bytes = new Uint8Array(words.reduce((sum, it) => sum + it.length + 1, 0));
  let at = 0;
  for (const it of words) {
    bytes.set(it, at);
    at += it.length + 1;
  }
  return bytes;
}

const nothing = new Uint8Array();

export async function runLibrary(module, words, files, rooms = { out: 65536, told: 4096 }) {
  const instance = await WebAssembly.instantiate(module, {});
  let memory, out, told, outCount, toldCount, status;
  try {
    memory = new Memory(instance);
    const given = [joined(words), files.trace, files.world, files.events].flatMap(it => memory.copy(it ?? nothing));
    out = memory.slice(rooms.out);
    told = memory.slice(rooms.told);
    [outCount] = memory.slice(8);
    [toldCount] = memory.slice(8);
    const keys = crypto.getRandomValues(new BigUint64Array(2));
    status = instance.exports.serve(...given, ...keys, ...out, outCount, ...told, toldCount) & 255;
  } catch (error) {
    return { status: -1, out: nothing, err: new TextEncoder().encode(`jobk: ${error.message}\n`) };
  }
  const wanted = { out: memory.number(outCount), told: memory.number(toldCount) };
  if (wanted.out > rooms.out || wanted.told > rooms.told) {
    return runLibrary(module, words, files, { out: Math.max(wanted.out, rooms.out), told: Math.max(wanted.told, rooms.told) });
  }
  return { status, out: memory.bytes(out[0], wanted.out).slice(), err: memory.bytes(told[0], wanted.told).slice() };
}
