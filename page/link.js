// Encodes both texts and the chosen event in the fragment of an address, compressed if the browser can compress.

async function through(stream, bytes) {
  return new Uint8Array(await new Response(new Blob([bytes]).stream().pipeThrough(stream)).arrayBuffer());
}

const packed = bytes => typeof CompressionStream === 'undefined' ? null : through(new CompressionStream('deflate-raw'), bytes);

function lettersOf(bytes) {
  let all = '';
  for (const byte of bytes) all += String.fromCharCode(byte);
  return btoa(all).replaceAll('+', '-').replaceAll('/', '_').replaceAll('=', '');
}

const bytesOf = letters => Uint8Array.from(atob(letters.replaceAll('-', '+').replaceAll('_', '/')), it => it.charCodeAt(0));

// The fragment begins with 1 if it is compressed, and with 0 otherwise.
export async function fragmentOf({ world, events, at }) {
  const bytes = new TextEncoder().encode(JSON.stringify({ world, events, at }));
  const small = await packed(bytes);
  return small ? `#1${lettersOf(small)}` : `#0${lettersOf(bytes)}`;
}

// Returns the texts in a fragment; null if it holds none.
export async function textsOf(fragment) {
  if (!/^#[01]./.test(fragment)) return null;
  try {
    let bytes = bytesOf(fragment.slice(2));
    if (fragment[1] === '1') bytes = await through(new DecompressionStream('deflate-raw'), bytes);
    const { world, events, at } = JSON.parse(new TextDecoder().decode(bytes));
    return typeof world === 'string' && typeof events === 'string' ? { world, events, at: Number(at) || 0 } : null;
  } catch {
    return null;
  }
}
