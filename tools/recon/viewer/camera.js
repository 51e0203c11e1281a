// The camera: it looks at `aim` from `distance` away, turned about an axis that is up.

const FRAMES = {
  'z': [[1, 0, 0], [0, 1, 0], [0, 0, 1]],
  'y': [[0, 0, 1], [1, 0, 0], [0, 1, 0]],
  '-y': [[1, 0, 0], [0, 0, 1], [0, -1, 0]],
};
const HALF_ANGLE = 0.35;

const dot = (a, b) => a[0] * b[0] + a[1] * b[1] + a[2] * b[2];
const cross = (a, b) => [a[1] * b[2] - a[2] * b[1], a[2] * b[0] - a[0] * b[2], a[0] * b[1] - a[1] * b[0]];
const clamp = (x, low, high) => Math.max(low, Math.min(high, x));

class Camera {
  /** `box` is the size of all meshes, from 0 on; `spots` are positions of scanners, three numbers each. */
  constructor(box, spots) {
    this.middle = box.map((x) => x / 2);
    this.reach = Math.hypot(...box) / 2 || 1;
    this.spots = spots;
    this.farthest = this.reach;
    for (let k = 0; k < spots.length; k += 3)
      this.farthest = Math.max(this.farthest, Math.hypot(...this.middle.map((m, axis) => spots[k + axis] - m)));
    this.up = 'z';
    this.reset();
  }

  /** Looks at the middle, from the side where the scanners stood if that is one side. */
  reset() {
    this.aim = [...this.middle];
    this.distance = 2.9 * this.reach;
    [this.turn, this.tilt] = [0.8, 0.42];
    const count = this.spots.length / 3, mean = [0, 0, 0];
    for (let k = 0; k < this.spots.length; k++) mean[k % 3] += this.spots[k] / count;
    const way = mean.map((x, axis) => x - this.middle[axis]);
    if (!count || Math.hypot(...way) < this.reach / 2) return;
    const [east, north, height] = FRAMES[this.up].map((axis) => dot(axis, way));
    this.turn = Math.atan2(north, east) + 0.3;
    this.tilt = clamp(Math.atan2(height, Math.hypot(east, north)), 0.25, 1.1);
  }

  /** Returns the directions right, up and towards the eye. */
  axes() {
    const [east, north, up] = FRAMES[this.up], flat = Math.cos(this.tilt);
    const parts = [flat * Math.cos(this.turn), flat * Math.sin(this.turn), Math.sin(this.tilt)];
    const back = [0, 1, 2].map((k) => parts[0] * east[k] + parts[1] * north[k] + parts[2] * up[k]);
    const right = [0, 1, 2].map((k) => -Math.sin(this.turn) * east[k] + Math.cos(this.turn) * north[k]);
    return [right, cross(back, right), back];
  }

  /** Returns the matrix from positions to the camera's axes. */
  view() {
    const [r, u, b] = this.axes();
    return [r[0], u[0], b[0], 0, r[1], u[1], b[1], 0, r[2], u[2], b[2], 0,
      -dot(r, this.aim), -dot(u, this.aim), -dot(b, this.aim) - this.distance, 1];
  }

  /** Returns the matrix from the camera's axes to the picture. */
  projection(width, height) {
    const scale = Math.min(width, height) / Math.tan(HALF_ANGLE);
    const near = this.distance / 200, far = this.distance + 2 * this.farthest + 2 * this.reach;
    return [scale / width, 0, 0, 0, 0, scale / height, 0, 0, 0, 0, (far + near) / (near - far), -1, 0, 0, 2 * far * near / (near - far), 0];
  }

  /** Returns the eye, and the direction to a pixel of a picture of this size. */
  ray(x, y, width, height) {
    const [right, up, back] = this.axes(), step = 2 * Math.tan(HALF_ANGLE) / Math.min(width, height);
    const across = (x - width / 2) * step, above = (height / 2 - y) * step;
    return [this.aim.map((place, k) => place + back[k] * this.distance), right.map((part, k) => part * across + up[k] * above - back[k])];
  }

  orbit(right, down) {
    this.turn -= right;
    this.tilt = clamp(this.tilt + down, -1.57, 1.57);
  }

  /** Moves the aim, in parts of the shorter side of the picture. */
  pan(right, down) {
    const [r, u] = this.axes(), step = 2 * Math.tan(HALF_ANGLE) * this.distance;
    for (let k = 0; k < 3; k++) this.aim[k] -= (r[k] * right - u[k] * down) * step;
  }

  zoom(factor) {
    this.distance = clamp(this.distance * factor, this.reach / 200, 20 * this.farthest);
  }
}
