// The programs of the graphics processor, which makes each square of a list two triangles.

// (Squares are read from a texture: instances of four corners each are slow on many processors.)
const VERTEX = `#version 300 es
precision highp float;
precision highp int;
precision highp usampler2D;
uniform usampler2D squares;
uniform int first, side;
uniform ivec3 middle;
uniform mat4 view;
uniform vec2 slice;
uniform bool isCut;
out vec2 place;
out float height;
flat out float edge;

void main() {
  int number = gl_VertexID / 6 + first, turn = gl_VertexID % 6;
  uvec4 square = texelFetch(squares, ivec2(number & 2047, number >> 11), 0);
  int axis = side >> 1, across = axis == 0 ? 1 : 0, along = axis == 2 ? 1 : 2;
  vec2 corner = vec2(0x32 >> turn & 1, 0x2c >> turn & 1);
  edge = float(1u << square.w);
  vec3 at = vec3(ivec3(square.xyz) - middle);
  float low = at.z, high = at.z + edge;
  at[across] += corner.x * edge;
  at[along] += corner.y * edge;
  at[axis] += float(side & 1) * edge;
  bool isIn = low < slice.y && high > slice.x;
  if (isCut) at.z = side == 5 ? slice.y : slice.x;
  else if (axis < 2) at.z = clamp(at.z, slice.x, slice.y);
  else if (side == 5) isIn = high > slice.x && high < slice.y;
  else isIn = low > slice.x && low < slice.y;
  place = corner * edge;
  if (axis < 2) place.y = at.z - low;
  height = at.z - (side == 5 ? 0.5 : side == 4 ? -0.5 : 0.0);
  gl_Position = isIn ? view * vec4(at, 1.0) : vec4(2.0, 2.0, 2.0, 1.0);
}`;

// A colour whose last number is 0 is that of the height. Near blocks have lines at their edges.
const FRAGMENT = `#version 300 es
precision highp float;
in vec2 place;
in float height;
flat in float edge;
uniform vec2 span;
uniform vec3 heights[5];
uniform vec4 colour;
uniform float light;
out vec4 shown;

vec3 colourOfHeight() {
  float part = clamp((height - span.x) / max(span.y - span.x, 1.0), 0.0, 1.0) * 4.0;
  int below = min(int(part), 3);
  return mix(heights[below], heights[below + 1], part - float(below));
}

void main() {
  vec2 pixel = max(fwidth(place), 1e-6), away = min(place, edge - place) / pixel;
  float line = 1.0 - smoothstep(0.0, 1.2, min(away.x, away.y));
  line *= 0.35 * clamp(edge / max(pixel.x, pixel.y) / 8.0 - 0.25, 0.0, 1.0);
  vec3 painted = colour.a > 0.0 ? colour.rgb : colourOfHeight();
  float cover = colour.a > 0.0 ? min(colour.a * (1.0 + 4.0 * line), 1.0) : 1.0;
  shown = vec4(painted * light * (1.0 - line), cover);
}`;

const UNIFORMS = ["first", "side", "middle", "view", "slice", "isCut", "span", "heights", "colour",
  "light"];

// Makes the program, uses it, and answers where its uniforms are.
export function useProgram(gl) {
  const program = gl.createProgram();
  gl.attachShader(program, shaderOf(gl, gl.VERTEX_SHADER, VERTEX));
  gl.attachShader(program, shaderOf(gl, gl.FRAGMENT_SHADER, FRAGMENT));
  gl.linkProgram(program);
  if (!gl.getProgramParameter(program, gl.LINK_STATUS)) throw Error(gl.getProgramInfoLog(program));
  gl.useProgram(program);
  return Object.fromEntries(UNIFORMS.map(it => [it, gl.getUniformLocation(program, it)]));
}

function shaderOf(gl, kind, text) {
  const shader = gl.createShader(kind);
  gl.shaderSource(shader, text);
  gl.compileShader(shader);
  if (!gl.getShaderParameter(shader, gl.COMPILE_STATUS)) throw Error(gl.getShaderInfoLog(shader));
  return shader;
}

const WIDTH = 2048;

// Lists of squares one after another in a texture.
export class Stored {
  constructor(gl, lists) {
    this.gl = gl;
    this.runs = [];
    let many = 0;
    for (const {length} of lists) {
      this.runs.push({first: many, many: length});
      many += length;
    }
    const height = Math.ceil(many / WIDTH) || 1;
    if (height > gl.getParameter(gl.MAX_TEXTURE_SIZE)) throw Error("it has too many faces");
    const numbers = new Uint16Array(4 * WIDTH * height);
    lists.forEach((it, n) =>
      numbers.set(it.numbers.subarray(0, 4 * it.length), 4 * this.runs[n].first));
    this.texture = this.textureOf(numbers, height);
  }

  textureOf(numbers, height) {
    const gl = this.gl, texture = gl.createTexture();
    gl.bindTexture(gl.TEXTURE_2D, texture);
    gl.texImage2D(gl.TEXTURE_2D, 0, gl.RGBA16UI, WIDTH, height, 0, gl.RGBA_INTEGER,
      gl.UNSIGNED_SHORT, numbers);
    gl.texParameteri(gl.TEXTURE_2D, gl.TEXTURE_MIN_FILTER, gl.NEAREST);
    gl.texParameteri(gl.TEXTURE_2D, gl.TEXTURE_MAG_FILTER, gl.NEAREST);
    return texture;
  }

  draw(run, uniforms) {
    const {first, many} = this.runs[run];
    if (!many) return;
    this.gl.bindTexture(this.gl.TEXTURE_2D, this.texture);
    this.gl.uniform1i(uniforms.first, first);
    this.gl.drawArrays(this.gl.TRIANGLES, 0, 6 * many);
  }

  free() {
    this.gl.deleteTexture(this.texture);
  }
}

// Lists that come in parts, in any number and at any time; the first of them are drawn already.
export class Parts {
  constructor() {
    Object.assign(this, {all: [], drawn: 0});
  }

  get isGrown() {
    return this.drawn < this.all.length;
  }

  add(stored) {
    if (this.isFreed) stored.free();
    else this.all.push(stored);
  }

  draw(run, uniforms) {
    for (const it of this.all.slice(this.drawn)) it.draw(run, uniforms);
  }

  free() {
    this.isFreed = true;
    for (const it of this.all) it.free();
  }
}
