// From the text of a mesh to arrays for the graphics card. page.py writes what is read here.

/** Returns the inflated bytes of a block of text. */
async function inflated(id) {
  const packed = Uint8Array.from(atob(document.getElementById(id).textContent), (c) => c.charCodeAt(0));
  const stream = new Blob([packed]).stream().pipeThrough(new DecompressionStream('deflate'));
  return new Uint8Array(await new Response(stream).arrayBuffer());
}

/** Returns a reader of `count` signed numbers that stand as four planes of bytes from `start` on, their sign in the lowest bit. */
function planes(bytes, start, count) {
  return (k) => {
    const at = start + k;
    const folded = (bytes[at] | bytes[at + count] << 8 | bytes[at + 2 * count] << 16 | bytes[at + 3 * count] << 24) >>> 0;
    return folded >>> 1 ^ -(folded & 1);
  };
}

/** Returns the positions, four numbers of 16 bits a vertex, of which the last is 0. */
function positionsOf(step, count) {
  const positions = new Uint16Array(4 * count);
  for (let axis = 0; axis < 3; axis++)
    for (let k = 0, last = 0; k < count; k++) positions[4 * k + axis] = last += step(axis * count + k);
  return positions;
}

/** Returns three vertices a face. In a fan around its first vertex the second one of a face is the third one of the face before. */
function cornersOf(bytes, start, { faces, fans }) {
  const first = planes(bytes, start, fans), second = planes(bytes, start + 4 * fans, fans), third = planes(bytes, start + 8 * fans, faces);
  const bits = start + 8 * fans + 4 * faces, corners = new Uint32Array(3 * faces);
  for (let k = 0, fan = 0, a = 0, b = 0; k < faces; k++) {
    if (bytes[bits + (k >> 3)] >> 7 - (k & 7) & 1) {
      a += first(fan);
      b = a + second(fan++);
    }
    corners[3 * k] = a;
    corners[3 * k + 1] = b;
    corners[3 * k + 2] = b = a + third(k);
  }
  return corners;
}

/** Returns a byte of six bits. */
const widened = (value) => (value & 63) << 2 | (value & 63) >> 4;

/** Returns red, green, blue and 255 a vertex, in 64 steps: what is stored is green, and by how much the others are more. */
function colorsOf(bytes, start, count) {
  const colors = new Uint8Array(4 * count).fill(255);
  for (let k = 0, green = 0, red = 0, blue = 0; k < count; k++) {
    green += bytes[start + k];
    red += bytes[start + count + k];
    blue += bytes[start + 2 * count + k];
    colors[4 * k] = widened(green + red);
    colors[4 * k + 1] = widened(green);
    colors[4 * k + 2] = widened(green + blue);
  }
  return colors;
}

/** Adds the normal of a face, as long as the root of its area, to those of its corners. */
function addNormal(sums, positions, corners, face) {
  const [a, b, c] = corners.subarray(face, face + 3), p = positions;
  const ux = p[4 * b] - p[4 * a], uy = p[4 * b + 1] - p[4 * a + 1], uz = p[4 * b + 2] - p[4 * a + 2];
  const vx = p[4 * c] - p[4 * a], vy = p[4 * c + 1] - p[4 * a + 1], vz = p[4 * c + 2] - p[4 * a + 2];
  const x = uy * vz - uz * vy, y = uz * vx - ux * vz, z = ux * vy - uy * vx;
  const scale = 1 / (Math.sqrt(Math.hypot(x, y, z)) || 1);
  for (const corner of [a, b, c]) {
    sums[3 * corner] += x * scale;
    sums[3 * corner + 1] += y * scale;
    sums[3 * corner + 2] += z * scale;
  }
}

/** Returns a normal a vertex in four signed bytes, of the first `faces` faces: those that were seen. */
function normalsOf(positions, corners, faces) {
  const count = positions.length / 4, sums = new Float32Array(3 * count), normals = new Int8Array(4 * count);
  for (let face = 0; face < 3 * faces; face += 3) addNormal(sums, positions, corners, face);
  for (let k = 0; k < count; k++) {
    const scale = 127 / (Math.hypot(sums[3 * k], sums[3 * k + 1], sums[3 * k + 2]) || 1);
    for (let axis = 0; axis < 3; axis++) normals[4 * k + axis] = Math.round(sums[3 * k + axis] * scale);
  }
  return normals;
}

/** Returns positions, normals, corners and colors of the mesh in the block `id`, of which `head` gives the counts. */
async function decoded(id, head) {
  const bytes = await inflated(id);
  const positions = positionsOf(planes(bytes, 0, 3 * head.vertices), head.vertices);
  const corners = cornersOf(bytes, 12 * head.vertices, head);
  const end = 12 * head.vertices + 8 * head.fans + 4 * head.faces + Math.ceil(head.faces / 8);
  const colors = head.colored ? colorsOf(bytes, end, head.vertices) : null;
  return { positions, corners, colors, normals: normalsOf(positions, corners, head.seen) };
}
