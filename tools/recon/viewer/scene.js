// What is drawn, by WebGL 2.

const SURFACE_VERTEX = `#version 300 es
in vec3 position, normal, color;
uniform mat4 projection, view;
out vec3 seen, turned, painted, at;
void main() {
  vec4 placed = view * vec4(position, 1);
  seen = placed.xyz;
  at = position;
  turned = mat3(view) * normal;
  painted = color;
  gl_Position = projection * placed;
}`;
const SURFACE_FRAGMENT = `#version 300 es
precision highp float;
in vec3 seen, turned, painted, at;
uniform bool isFlat, isPainted;
uniform vec3 base;
uniform vec4 section;
out vec4 pixel;
void main() {
  if (dot(section.xyz, at) > section.w) discard;
  vec3 face = normalize(cross(dFdx(seen), dFdy(seen)));
  vec3 side = gl_FrontFacing ? turned : -turned;
  vec3 normal = isFlat || dot(side, side) < 0.01 ? face : normalize(side);
  float light = 0.28 + 0.5 * max(dot(normal, normalize(vec3(-0.4, 0.6, 0.7))), 0.0) + 0.25 * max(dot(normal, normalize(-seen)), 0.0);
  vec3 color = gl_FrontFacing ? (isPainted ? painted : base) : vec3(0.45, 0.6, 0.8);
  pixel = vec4(color * light, 1);
}`;
const LINE_VERTEX = `#version 300 es
in vec3 position;
uniform mat4 projection, view;
uniform float size;
void main() {
  gl_Position = projection * view * vec4(position, 1);
  gl_PointSize = size;
}`;
const LINE_FRAGMENT = `#version 300 es
precision highp float;
uniform vec4 base;
out vec4 pixel;
void main() { pixel = base; }`;
const SLOTS = ['position', 'normal', 'color'];
const SEEN = [0.98, 0.85, 0.68], UNSEEN = [0.74, 0.74, 0.76];

class Scene {
  constructor(canvas, spots, segments) {
    this.canvas = canvas;
    this.gl = canvas.getContext('webgl2', { antialias: true, alpha: false });
    if (!this.gl) throw new Error('this browser has no WebGL 2');
    this.surface = this.program(SURFACE_VERTEX, SURFACE_FRAGMENT);
    this.lines = this.program(LINE_VERTEX, LINE_FRAGMENT);
    this.spots = this.strip(spots);
    this.segments = this.strip(segments);
    this.measured = this.strip([]);
    this.section = [0, 0, 0, 1];
    this.mesh = null;
  }

  /** Sets the places that were clicked, three numbers each. */
  measure(numbers) {
    this.gl.deleteVertexArray(this.measured.array);
    this.gl.deleteBuffer(this.measured.buffer);
    this.measured = this.strip(numbers);
  }

  shader(kind, text) {
    const gl = this.gl, shader = gl.createShader(kind);
    gl.shaderSource(shader, text);
    gl.compileShader(shader);
    if (!gl.getShaderParameter(shader, gl.COMPILE_STATUS)) throw new Error(gl.getShaderInfoLog(shader));
    return shader;
  }

  /** Returns a program, and its uniforms by name. */
  program(vertex, fragment) {
    const gl = this.gl, program = gl.createProgram(), uniforms = {};
    gl.attachShader(program, this.shader(gl.VERTEX_SHADER, vertex));
    gl.attachShader(program, this.shader(gl.FRAGMENT_SHADER, fragment));
    SLOTS.forEach((name, slot) => gl.bindAttribLocation(program, slot, name));
    gl.linkProgram(program);
    if (!gl.getProgramParameter(program, gl.LINK_STATUS)) throw new Error(gl.getProgramInfoLog(program));
    for (let k = 0; k < gl.getProgramParameter(program, gl.ACTIVE_UNIFORMS); k++) {
      const { name } = gl.getActiveUniform(program, k);
      uniforms[name] = gl.getUniformLocation(program, name);
    }
    return { program, uniforms };
  }

  attribute(slot, array, type, bytes) {
    const gl = this.gl, buffer = gl.createBuffer();
    gl.bindBuffer(gl.ARRAY_BUFFER, buffer);
    gl.bufferData(gl.ARRAY_BUFFER, array, gl.STATIC_DRAW);
    gl.enableVertexAttribArray(slot);
    gl.vertexAttribPointer(slot, 3, type, type !== gl.FLOAT, bytes, 0);
    return buffer;
  }

  /** Returns positions on the graphics card, three numbers each. */
  strip(numbers) {
    const gl = this.gl, array = gl.createVertexArray();
    gl.bindVertexArray(array);
    const buffer = this.attribute(0, new Float32Array(numbers), gl.FLOAT, 12);
    gl.bindVertexArray(null);
    return { array, buffer, count: numbers.length / 3 };
  }

  /** Returns a decoded mesh on the graphics card. */
  upload(mesh, head) {
    const gl = this.gl, array = gl.createVertexArray();
    gl.bindVertexArray(array);
    this.attribute(0, mesh.positions, gl.UNSIGNED_SHORT, 8);
    this.attribute(1, mesh.normals, gl.BYTE, 4);
    if (mesh.colors) this.attribute(2, mesh.colors, gl.UNSIGNED_BYTE, 4);
    gl.bindBuffer(gl.ELEMENT_ARRAY_BUFFER, gl.createBuffer());
    gl.bufferData(gl.ELEMENT_ARRAY_BUFFER, mesh.corners, gl.STATIC_DRAW);
    gl.bindVertexArray(null);
    return { array, head, positions: mesh.positions, corners: mesh.corners };
  }

  /** Gives the canvas as many pixels as the screen has there, at most two a unit of length of the page. */
  fit() {
    const ratio = Math.min(devicePixelRatio || 1, 2), { canvas } = this;
    const width = Math.max(1, Math.round(canvas.clientWidth * ratio)), height = Math.max(1, Math.round(canvas.clientHeight * ratio));
    if (canvas.width !== width || canvas.height !== height) [canvas.width, canvas.height] = [width, height];
    this.gl.viewport(0, 0, width, height);
    return ratio;
  }

  use({ program, uniforms }, camera) {
    const gl = this.gl;
    gl.useProgram(program);
    gl.uniformMatrix4fv(uniforms.projection, false, camera.projection(this.canvas.width, this.canvas.height));
    gl.uniformMatrix4fv(uniforms.view, false, camera.view());
    return uniforms;
  }

  /** Draws the mesh with the options of the page: flat, unseen, back, colors, scanners, sights. */
  draw(camera, options) {
    const gl = this.gl, ratio = this.fit();
    gl.clearColor(0.96, 0.97, 0.98, 1);
    gl.clear(gl.COLOR_BUFFER_BIT | gl.DEPTH_BUFFER_BIT);
    if (!this.mesh) return;
    gl.enable(gl.DEPTH_TEST);
    this.drawSurface(this.use(this.surface, camera), options);
    const uniforms = this.use(this.lines, camera);
    gl.uniform1f(uniforms.size, 8 * ratio);
    if (options.sights) this.drawStrip(uniforms, this.segments, gl.LINES, [0.15, 0.4, 0.8, 0.5]);
    if (options.scanners) this.drawStrip(uniforms, this.spots, gl.POINTS, [0.8, 0.1, 0.1, 1]);
    gl.disable(gl.DEPTH_TEST);
    for (const kind of [gl.LINES, gl.POINTS]) this.drawStrip(uniforms, this.measured, kind, [0.75, 0, 0.6, 1]);
    gl.bindVertexArray(null);
  }

  drawSurface(uniforms, options) {
    const gl = this.gl, { array, head } = this.mesh;
    if (options.back) gl.disable(gl.CULL_FACE);
    else gl.enable(gl.CULL_FACE);
    gl.bindVertexArray(array);
    gl.uniform4fv(uniforms.section, this.section);
    gl.uniform1i(uniforms.isFlat, options.flat);
    gl.uniform1i(uniforms.isPainted, head.colored && options.colors);
    gl.uniform3fv(uniforms.base, SEEN);
    gl.drawElements(gl.TRIANGLES, 3 * head.seen, gl.UNSIGNED_INT, 0);
    if (!options.unseen || head.seen === head.faces) return;
    gl.uniform1i(uniforms.isFlat, true);
    gl.uniform1i(uniforms.isPainted, false);
    gl.uniform3fv(uniforms.base, UNSEEN);
    gl.drawElements(gl.TRIANGLES, 3 * (head.faces - head.seen), gl.UNSIGNED_INT, 12 * head.seen);
  }

  drawStrip(uniforms, { array, count }, kind, color) {
    const gl = this.gl;
    gl.enable(gl.BLEND);
    gl.blendFunc(gl.SRC_ALPHA, gl.ONE_MINUS_SRC_ALPHA);
    gl.uniform4fv(uniforms.base, color);
    gl.bindVertexArray(array);
    gl.drawArrays(kind, 0, count);
    gl.disable(gl.BLEND);
  }
}
