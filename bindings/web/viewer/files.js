// Files that the page gives away.

const TABLE = Uint32Array.from({length: 256}, (_, it) => {
  for (let bit = 0; bit < 8; bit++) it = it & 1 ? it >>> 1 ^ 0xedb88320 : it >>> 1;
  return it;
});
// Of a grid: what stands in a picture for 100, 0 and -1, as in the picture of `octofix grid`.
const GREYS = {100: 0, 0: 254, "-1": 205};

export function give(content, name) {
  const link = document.createElement("a");
  link.href = URL.createObjectURL(new Blob([content]));
  link.download = name;
  link.click();
  setTimeout(() => URL.revokeObjectURL(link.href), 60000);
}

// The PNG of a grid, the row of the highest y first.
export async function pictureOf({cells, rows, columns}) {
  const lines = new Uint8Array(rows * (columns + 1));
  for (let row = 0; row < rows; row++)
    for (let column = 0; column < columns; column++)
      lines[(rows - 1 - row) * (columns + 1) + column + 1] = GREYS[cells[row * columns + column]];
  const head = new DataView(new ArrayBuffer(13));
  head.setUint32(0, columns);
  head.setUint32(4, rows);
  head.setUint8(8, 8);                  // bits of a grey
  const mark = Uint8Array.of(0x89, 0x50, 0x4e, 0x47, 0x0d, 0x0a, 0x1a, 0x0a);
  const packed = await deflated(lines);
  return new Blob([mark, chunk("IHDR", new Uint8Array(head.buffer)), chunk("IDAT", packed),
    chunk("IEND", new Uint8Array(0))]);
}

async function deflated(bytes) {
  const stream = new Blob([bytes]).stream().pipeThrough(new CompressionStream("deflate"));
  return new Uint8Array(await new Response(stream).arrayBuffer());
}

function chunk(name, content) {
  const made = new Uint8Array(12 + content.length), view = new DataView(made.buffer);
  view.setUint32(0, content.length);
  made.set(new TextEncoder().encode(name), 4);
  made.set(content, 8);
  view.setUint32(8 + content.length, sumOf(made.subarray(4, 8 + content.length)));
  return made;
}

function sumOf(bytes) {
  let sum = 0xffffffff;
  for (const it of bytes) sum = TABLE[(sum ^ it) & 255] ^ sum >>> 8;
  return (sum ^ 0xffffffff) >>> 0;
}
