// Files of a folder, in Node and in a browser.

export async function bytesAt(folder, name) {
  const url = new URL(name, folder);
  if (url.protocol !== "file:") return (await fetch(url)).arrayBuffer();
  const {readFile} = await import("node:fs/promises"), found = await readFile(url);
  return found.buffer.slice(found.byteOffset, found.byteOffset + found.length);
}

export const jsonAt = async (folder, name) =>
  JSON.parse(new TextDecoder().decode(await bytesAt(folder, name)));
