// The page: its switches, mouse, touch and keys. `#mesh=2&flat=1&unseen=0` behind the page's address sets them at the start.

const SWITCHES = ['flat', 'unseen', 'back', 'colors', 'scanners', 'sights', 'full', 'turned', 'measure'];
// how far in pixels a click may go before it drags
const STILL = 4;
const element = (id) => document.getElementById(id);

class Page {
  constructor(scene) {
    this.data = scene;
    this.canvas = element('view');
    this.camera = new Camera(scene.box, scene.scanners);
    this.scene = new Scene(this.canvas, scene.scanners, scene.sights);
    this.loaded = new Map();
    this.waits = false;
    this.ruler = new Ruler(scene);
    this.listen();
    element('unseen').checked = scene.showsUnseen;
    this.readAddress();
    this.camera.reset();
    this.cut();
    this.show(Number(element('mesh').value));
  }

  /** The switches, by name. */
  options() {
    return Object.fromEntries(SWITCHES.map((id) => [id, element(id).checked]));
  }

  /** Draws before the next picture of the screen, once. */
  draw() {
    if (this.waits) return;
    this.waits = true;
    requestAnimationFrame(() => {
      this.waits = false;
      this.scene.draw(this.camera, this.options());
    });
  }

  /** Shows mesh `k`: first its preview where it has one, and then all faces unless they are switched off, or another mesh was asked for
   *  meanwhile. */
  async show(k) {
    this.asked = k;
    const head = this.data.meshes[k];
    element('name').textContent = head.name;
    element('status').textContent = 'reading the mesh';
    try {
      if (head.preview && !this.loaded.has(`mesh-${k}`)) await this.load(k, `preview-${k}`, head.preview);
      if (!head.preview || element('full').checked) await this.load(k, `mesh-${k}`, head);
      else await this.load(k, `preview-${k}`, head.preview);
    } catch (error) {
      fail(`the mesh cannot be shown: ${error.message}`);
    }
  }

  /** Decodes a block where that was not done, and draws it. */
  async load(k, id, head) {
    if (!this.loaded.has(id)) this.loaded.set(id, this.scene.upload(await decoded(id, head), head));
    if (this.asked !== k) return;
    this.scene.mesh = this.loaded.get(id);
    const all = this.data.meshes[k], faces = `${all.faces.toLocaleString('en')} faces, ${all.vertices.toLocaleString('en')} vertices`;
    element('status').textContent = head === all ? faces : `preview by ${head.faces.toLocaleString('en')} faces of ${faces}`;
    this.canvas.dataset.mesh = k;
    this.canvas.dataset.block = id;
    this.draw();
    // the picture comes before the next block is decoded
    await new Promise((done) => setTimeout(done, 30));
  }

  /** Takes the section over from its switches. */
  cut() {
    const axis = element('section').value, part = Number(element('at').value), { box, low, side } = this.data, k = AXES.indexOf(axis);
    this.scene.section = sectionOf(axis, part, element('turned').checked, box);
    element('has-section').hidden = k < 0;
    element('height').textContent = k < 0 ? '' : `${axis} = ${(low[k] + side * part * box[k]).toPrecision(6)}`;
    this.draw();
  }

  /** Measures at a pixel of the view. */
  pick(x, y) {
    const { canvas, scene } = this, { mesh } = scene, options = this.options();
    if (!mesh) return;
    const ray = this.camera.ray(x, y, canvas.clientWidth, canvas.clientHeight);
    const place = met(mesh, options.unseen ? mesh.head.faces : mesh.head.seen, ray, scene.section, options.back);
    if (place) this.ruler.add(place);
    this.tell();
  }

  /** Says what was measured, and draws it. */
  tell() {
    const isRough = this.scene.mesh?.head !== this.data.meshes[this.asked];
    const text = this.ruler.text();
    element('measured').textContent = text + (text && isRough ? ', on the preview' : '');
    this.scene.measure(this.ruler.places.flat());
    this.draw();
  }

  /** Sets switches, mesh and up by what stands behind `#` in the address. */
  readAddress() {
    const given = new URLSearchParams(location.hash.slice(1));
    for (const id of SWITCHES) if (given.has(id)) element(id).checked = given.get(id) === '1';
    if (given.has('mesh')) element('mesh').value = given.get('mesh');
    if (given.get('up') in FRAMES) this.camera.up = element('up').value = given.get('up');
    if (AXES.includes(given.get('section'))) element('section').value = given.get('section');
    if (given.has('at')) element('at').value = given.get('at');
  }

  listen() {
    const { meshes, scanners, sights } = this.data;
    element('mesh').max = meshes.length - 1;
    element('choice').hidden = meshes.length < 2;
    element('has-unseen').hidden = !meshes.some((head) => head.seen < head.faces);
    element('has-colors').hidden = !meshes.some((head) => head.colored);
    element('has-scanners').hidden = !scanners.length;
    element('has-sights').hidden = !sights.length;
    element('has-full').hidden = !meshes.some((head) => head.preview);
    for (const id of SWITCHES) element(id).addEventListener('change', () => this.draw());
    for (const id of ['section', 'at', 'turned']) element(id).addEventListener('input', () => this.cut());
    element('full').addEventListener('change', () => this.show(this.asked));
    element('measure').addEventListener('change', () => {
      this.ruler.clear();
      this.tell();
    });
    element('mesh').addEventListener('input', (event) => this.show(Number(event.target.value)));
    element('up').addEventListener('change', (event) => {
      this.camera.up = event.target.value;
      this.reset();
    });
    element('reset').addEventListener('click', () => this.reset());
    addEventListener('resize', () => this.draw());
    this.listenToPointers();
    this.canvas.addEventListener('keydown', (event) => this.key(event));
    this.canvas.addEventListener('webglcontextlost', () => fail('the graphics context was lost: reload the page'));
  }

  reset() {
    this.camera.reset();
    this.draw();
  }

  listenToPointers() {
    const { canvas } = this, held = this.held = new Map();
    canvas.addEventListener('pointerdown', (event) => {
      canvas.setPointerCapture(event.pointerId);
      held.set(event.pointerId, [event.clientX, event.clientY]);
      this.pressed = held.size === 1 && event.button === 0 ? [event.offsetX, event.offsetY] : null;
    });
    canvas.addEventListener('pointerup', (event) => {
      const start = this.pressed, end = [event.offsetX, event.offsetY];
      if (start && element('measure').checked && Math.hypot(end[0] - start[0], end[1] - start[1]) < STILL) this.pick(...end);
    });
    for (const kind of ['pointerup', 'pointercancel']) canvas.addEventListener(kind, (event) => held.delete(event.pointerId));
    canvas.addEventListener('pointermove', (event) => this.move(event));
    canvas.addEventListener('dblclick', () => element('measure').checked || this.reset());
    canvas.addEventListener('contextmenu', (event) => event.preventDefault());
    canvas.addEventListener('wheel', (event) => {
      event.preventDefault();
      const lines = event.deltaMode === 1 ? 30 : 1;
      this.camera.zoom(Math.exp(clamp(event.deltaY * lines, -400, 400) * 0.0012));
      this.draw();
    }, { passive: false });
  }

  /** Returns how far two fingers are apart, or 0 for another number of them. */
  gap() {
    const [a, b, more] = [...this.held.values()];
    return a && b && !more ? Math.hypot(a[0] - b[0], a[1] - b[1]) : 0;
  }

  move(event) {
    const before = this.held.get(event.pointerId);
    if (!before) return;
    const gap = this.gap(), right = event.clientX - before[0], down = event.clientY - before[1];
    this.held.set(event.pointerId, [event.clientX, event.clientY]);
    const side = Math.min(this.canvas.clientWidth, this.canvas.clientHeight) * this.held.size;
    if (this.held.size > 1 || event.shiftKey || event.buttons & 6) this.camera.pan(right / side, down / side);
    else this.camera.orbit(right * 0.008, down * 0.008);
    if (gap && this.gap()) this.camera.zoom(gap / this.gap());
    this.draw();
  }

  key(event) {
    const arrows = { ArrowLeft: [-1, 0], ArrowRight: [1, 0], ArrowUp: [0, -1], ArrowDown: [0, 1] }[event.key];
    if (event.ctrlKey || event.altKey || event.metaKey) return;
    if (arrows && event.shiftKey) this.camera.pan(0.05 * arrows[0], 0.05 * arrows[1]);
    else if (arrows) this.camera.orbit(0.08 * arrows[0], 0.08 * arrows[1]);
    else if (event.key === '+' || event.key === '=') this.camera.zoom(0.85);
    else if (event.key === '-') this.camera.zoom(1 / 0.85);
    else if (event.key === 'Home') this.camera.reset();
    else if (event.key === 'Escape') {
      this.ruler.clear();
      this.tell();
    }
    else return;
    event.preventDefault();
    this.draw();
  }
}

/** Tells why there is no picture, in the place of the picture. */
function fail(text) {
  element('status').textContent = text;
}

try {
  if (!('DecompressionStream' in window)) throw new Error('this browser has no DecompressionStream: it is older than 2023');
  new Page(JSON.parse(element('scene').textContent));
} catch (error) {
  fail(`the surface cannot be drawn: ${error.message}`);
}
