// The most memory that the module of the player may take.

/** The least and the most megabytes: the module begins with 4, and its addresses have 32 bits. */
export const LEAST_MEMORY = 16;
export const MOST_MEMORY = 4096;

/** The pages of WebAssembly that are a megabyte, and the number of the section that has the memory. */
const PAGES = 16;
const MEMORY_SECTION = 5;

/** Returns the number of LEB128 that begins at a place of a module, and the place after it. */
function numberAt(bytes, at) {
  let [number, shift] = [0, 0];
  do {
    number += (bytes[at] & 127) * 2 ** shift;
    shift += 7;
  } while (bytes[at++] & 128);
  return [number, at];
}

/** Returns where the memory section of a module begins: the number of its memories, a flag, the least and the most pages of each. */
function memorySection(bytes) {
  for (let at = 8; at < bytes.length; ) {
    const kind = bytes[at];
    const [length, begin] = numberAt(bytes, at + 1);
    if (kind === MEMORY_SECTION) {
      return begin;
    }
    at = begin + length;
  }
  throw new Error("the module has no memory");
}

/** Returns a module whose memory has at most so many megabytes. The module says the most pages in three bytes. */
export function withMemory(bytes, megabytes) {
  const [, at] = numberAt(bytes, memorySection(bytes) + 2);
  const most = megabytes * PAGES;
  bytes.set([(most & 127) | 128, ((most >> 7) & 127) | 128, most >> 14], at);
  return bytes;
}
