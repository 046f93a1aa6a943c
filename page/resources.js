// The parts of the page: files in its folder, or, if the page is one file, compressed elements in it, in base64.

async function withinPage(letters) {
  const bytes = Uint8Array.from(atob(letters.trim()), it => it.charCodeAt(0));
  const stream = new Blob([bytes]).stream().pipeThrough(new DecompressionStream('gzip'));
  return new Uint8Array(await new Response(stream).arrayBuffer());
}

export async function bytesOfFile(name) {
  const within = document.getElementById(name);
  if (within) return withinPage(within.textContent);
  const answer = await fetch(new URL(name, import.meta.url));
  if (!answer.ok) throw new Error(`${name}: ${answer.status}`);
  return new Uint8Array(await answer.arrayBuffer());
}

export const jsonOfFile = async name => JSON.parse(new TextDecoder().decode(await bytesOfFile(name)));

// Returns a function that makes workers of a program. A program within the page is not a module, because browsers start
// no module workers for a page opened as a file.
export async function makerOfWorkers(name) {
  if (!document.getElementById(name)) return () => new Worker(new URL(name, import.meta.url), { type: 'module' });
  const address = URL.createObjectURL(new Blob([await bytesOfFile(name)], { type: 'text/javascript' }));
  return () => new Worker(address);
}
