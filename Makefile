# recon: builds, runs and tests. Each target says what it does while it does it.
PREFIX ?= /usr/local

# The interpreter that has numpy and scipy, which a run and the tests install where they may.
PYTHON = $(shell sh dev/python)
MACHINE = $(shell uname -s | tr A-Z a-z)-$(shell uname -m)

.PHONY: run programs recon recon-mesh python test attack fuzz try reference docs bench bench-short bench-others install install-texts dist test-packages clean
REFERENCE = dev/reference/target/release/recon-reference
# (looked up when it is used, after it has been built)
BESIDE ?= $(wildcard $(REFERENCE))

# Proves and builds the programs (the first time about twenty minutes on four processors, afterwards seconds), leaves them
# as ./recon and ./recon-mesh and runs them on an example.
run: python programs
	@echo "recon build: the surface of the tetrahedron in examples/"
	./recon build examples/tetrahedron.ply tetrahedron_mesh.ply tetrahedron.cert
	@echo "recon check: whether mesh and certificate are those of the scan"
	./recon check examples/tetrahedron.ply tetrahedron_mesh.ply tetrahedron.cert
	@echo "recon-mesh finish: the mesh with its edges flipped where the angles between faces fall"
	./recon-mesh finish tetrahedron_mesh.ply tetrahedron_finished.ply
	@echo "a scan of your own: python3 tools/recon surface SCAN -o mesh.glb (--help tells more)"

# Numpy and scipy, which the Python programs need: installed where that may be done, else the line to type.
python:
	@sh dev/python install >/dev/null

# Both programs, or one of them, where they or their sources have changed.
programs:
	@python3 dev/programs.py

recon recon-mesh:
	@python3 dev/programs.py $@

# All tests, as the gate runs them: every proof and every test of every crate, the edits that must be refused, the program; then what
# the documents name, the tests of tools/ and those of the built program. What passed here before and has not changed is not proved again.
test: python
	@echo "every proof, every edit that must be refused, every test, then the tests of tools/; all that they print goes to test.log"
	python3 dev/progress.py test.log bash .ci/run

# The wrong bodies of attack/, which the gate leaves out: all (half an hour on four processors where the gate has passed before, an hour where it
# has not), or those of some crates, as make attack CRATES="votes sight".
attack:
	@echo "wrong bodies of attack/: what begins, and a line for each crate at the end; all that is printed goes to attack.log"
	python3 dev/attack.py $(CRATES)

# Tries to make the built program and the Python tools fail, beside the model of dev/model and the reference program (ten minutes, or MINUTES;
# another SEED makes other cases). The smallest case of each failure is kept in fuzz_failures/, and printed as a command.
fuzz: recon recon-mesh reference
	$(PYTHON) dev/fuzz seed=$(or $(SEED),1) minutes=$(or $(MINUTES),10)

# Builds the unverified reference program of dev/reference and the judge of meshes of dev/mesh_judge, where there is cargo (less than a
# minute the first time).
reference:
	@if command -v cargo >/dev/null; then for beside in reference mesh_judge; do (cd dev/$$beside && cargo build --quiet --release --offline) || exit 1; done; \
	else echo "no cargo is here (Debian: apt-get install cargo): what needs the unverified reference program is left out"; fi

# A first surface before anything is proved: builds the reference program and runs it on a scan (a minute).
try:
	@command -v cargo >/dev/null || { echo "make try needs cargo (Debian: apt-get install cargo)"; exit 1; }
	@echo "This builds the unverified reference program, which writes the same mesh as recon. make run proves and builds recon itself."
	@$(MAKE) --no-print-directory reference
	$(REFERENCE) build examples/figurine.ply try_mesh.ply try.cert unit=10000 smooth=3
	$(REFERENCE) check examples/figurine.ply try_mesh.ply try.cert unit=10000 smooth=3
	@echo "recon writes the same bytes, and accepts both files: recon check examples/figurine.ply try_mesh.ply try.cert unit=10000 smooth=3"

# Prints the pages that are not committed (all definitions, what the libraries guarantee), and builds the documents as a site in site/, where
# there is mkdocs (a few seconds).
docs: python
	@command -v mkdocs >/dev/null || { echo "make docs needs mkdocs (Debian: apt-get install mkdocs)"; exit 1; }
	$(PYTHON) dev/docs print
	mkdocs build --quiet
	@echo "site/index.html"

# All tables of docs/explain/performance.md and docs/explain/accuracy.md, in their order (an hour; the scans are made the first time, in
# bench_scans/). The first table has one run of each program and scan, or RUNS of them.
# recon runs in turn with the unverified reference program if there is cargo, or with BESIDE=PROGRAM; a missing program is named and left out.
bench: recon recon-mesh reference
	@echo "build and check of scans of 10,000 to 1,000,000 points, and of the worst cases"
	$(PYTHON) dev/bench build ./recon bench_scans runs=$(or $(RUNS),1) $(if $(BESIDE),beside=$(BESIDE))
	@echo "recon-surface and the programs that it runs, a million points, without smoothing"
	$(PYTHON) dev/bench one_command ./recon ./recon-mesh bench_scans/torus.1000000.ply steps=0
	@echo "each command once, a million points"
	$(PYTHON) dev/bench commands ./recon bench_scans
	@echo "instructions and cache misses by phase, 100,000 points"
	$(PYTHON) dev/bench phases ./recon bench_scans $(if $(BESIDE),beside=$(BESIDE))
	$(MAKE) --no-print-directory bench-others

# Distance to the object, seconds and memory of other programs on the same scans: CGAL, COLMAP and Open3D, if they are installed (Debian: libcgal-dev,
# libcgal-demo, colmap, python3-open3d). Then what recon-surface chooses for the clouds that Debian packs (also opencv-doc), beside Open3D.
bench-others: recon recon-mesh
	$(PYTHON) dev/bench others ./recon bench_scans
	$(PYTHON) dev/bench simplified ./recon bench_scans options=move=yes
	$(PYTHON) dev/bench weights ./recon bench_scans noise=0.0005
	$(PYTHON) dev/bench clouds ./recon bench_scans/clouds
	$(PYTHON) dev/bench clouds_beside bench_scans/clouds

# Times build and check on the three worst shapes and on a cube, a room, a torus and a statue of a million points, beside the reference (BESIDE as
# above), then recon-surface on the torus (a quarter of an hour; RUNS of each, else one), and prints the rows of docs/explain/performance.md.
bench-short: recon recon-mesh reference
	$(PYTHON) dev/bench build ./recon bench_scans scans=short runs=$(or $(RUNS),1) $(if $(BESIDE),beside=$(BESIDE))
	$(PYTHON) dev/bench one_command ./recon ./recon-mesh bench_scans/torus.1000000.ply steps=0

# Installs the two programs, their manual pages and the programs of tools/ under PREFIX (a second, where they are built; else they
# are built first). recon-scan and the others run the package in share/recon by any Python 3.8 or later that has numpy and scipy.
install: programs install-texts
	install -D -m 755 recon $(DESTDIR)$(PREFIX)/bin/recon
	install -D -m 755 recon-mesh $(DESTDIR)$(PREFIX)/bin/recon-mesh

# The same without the two programs.
install-texts:
	$(PYTHON) dev/docs manual $(DESTDIR)$(PREFIX)/share/man/man1
	install -D -m 755 dev/python $(DESTDIR)$(PREFIX)/share/recon/python
	sh dev/install_package $(DESTDIR)$(PREFIX)

# Packs what is installed, for machines of this kind that have no toolchain: into an archive, which is unpacked anywhere and whose folder bin/ has the
# programs and the tools; into a Debian package; and into a wheel of Python with the programs inside (seconds, where the programs are built).
dist: programs
	rm -rf recon-$(MACHINE)
	$(MAKE) -o programs install DESTDIR=$(CURDIR)/ PREFIX=recon-$(MACHINE)
	cp -r README.md docs examples recon-$(MACHINE)
	tar -czf recon-$(MACHINE).tar.gz --owner=0 --group=0 --sort=name recon-$(MACHINE)
	rm -rf recon-$(MACHINE)
	@echo "recon-$(MACHINE).tar.gz"
	@$(PYTHON) dev/packages.py .

# Installs the Debian package and the wheel in a system that has nothing else, and runs the programs there (minutes; needs root, debootstrap and a mirror
# of Debian).
test-packages: dist
	$(PYTHON) dev/test_packages.py .

# Removes what was built and what the proofs kept (a second; the next run proves from nothing). The scans of bench stay.
clean:
	rm -rf crates/*/out recon recon-mesh recon-*.tar.gz recon_*.deb recon-*.whl site tetrahedron_mesh.ply tetrahedron_finished.ply tetrahedron.cert run.log run.sum \
	  try_mesh.ply try.cert test.log attack.log dev/reference/target
