// Sections by a plane, and distances between two places that are clicked.

const AXES = ['x', 'y', 'z'];

/** Returns the plane of a section: what it keeps has the product with the first three numbers at most the fourth one. `axis` is x, y or z, or
 *  none; `part` is how far along the box of all meshes the plane is. */
function sectionOf(axis, part, isTurned, box) {
  const k = AXES.indexOf(axis), plane = [0, 0, 0, 1];
  if (k < 0) return plane;
  const sign = isTurned ? -1 : 1;
  plane[k] = sign;
  plane[3] = sign * part * box[k];
  return plane;
}

/** Returns the nearest place at which a line of sight meets one of the first `count` faces, or null. Back sides count if `isTwoSided`, and what a
 *  section leaves out does not (the test of Moeller and Trumbore). */
function met({ positions, corners }, count, [eye, way], section, isTwoSided) {
  const at = (vertex, axis) => positions[4 * vertex + axis] / 65535;
  let nearest = Infinity, found = null;
  for (let face = 0; face < 3 * count; face += 3) {
    const a = corners[face], b = corners[face + 1], c = corners[face + 2];
    const ax = at(a, 0), ay = at(a, 1), az = at(a, 2);
    const ux = at(b, 0) - ax, uy = at(b, 1) - ay, uz = at(b, 2) - az, vx = at(c, 0) - ax, vy = at(c, 1) - ay, vz = at(c, 2) - az;
    const px = way[1] * vz - way[2] * vy, py = way[2] * vx - way[0] * vz, pz = way[0] * vy - way[1] * vx;
    const size = ux * px + uy * py + uz * pz;
    if (size === 0 || size < 0 && !isTwoSided) continue;
    const tx = eye[0] - ax, ty = eye[1] - ay, tz = eye[2] - az;
    const u = (tx * px + ty * py + tz * pz) / size;
    if (u < 0 || u > 1) continue;
    const qx = ty * uz - tz * uy, qy = tz * ux - tx * uz, qz = tx * uy - ty * ux;
    const v = (way[0] * qx + way[1] * qy + way[2] * qz) / size;
    if (v < 0 || u + v > 1) continue;
    const far = (vx * qx + vy * qy + vz * qz) / size;
    if (far <= 0 || far >= nearest) continue;
    const place = eye.map((x, axis) => x + far * way[axis]);
    if (dot(section, place) > section[3]) continue;
    [nearest, found] = [far, place];
  }
  return found;
}

/** The places that were clicked, at most two, and what is said of them. `low` is the least corner of all meshes and `side` the length that is 1
 *  in the page, both in the scan's coordinates. */
class Ruler {
  constructor({ low, side }) {
    Object.assign(this, { low, side, places: [] });
    this.digits = clamp(Math.ceil(-Math.log10(side / 65535)), 0, 12);
  }

  /** Adds a place; the third one begins anew. */
  add(place) {
    this.places = this.places.length > 1 ? [place] : [...this.places, place];
  }

  clear() {
    this.places = [];
  }

  text() {
    const round = (x) => x.toLocaleString('en', { minimumFractionDigits: this.digits, maximumFractionDigits: this.digits, useGrouping: false });
    const real = this.places.map((place) => place.map((x, k) => this.low[k] + this.side * x));
    if (!real.length) return '';
    if (real.length === 1) return `from ${real[0].map(round).join(', ')}`;
    const way = real[1].map((x, k) => x - real[0][k]);
    return `distance ${round(Math.hypot(...way))} (${AXES.map((axis, k) => `${axis} ${round(way[k])}`).join(', ')})`;
  }
}
