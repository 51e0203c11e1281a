"""A third opinion on `recon check`, written from the documents alone and not from any code of this repository: `docs/verification/audit.md`
(points, cells, scene, cut, texts) and the certificate's grammar and the reasons of docs/reference/formats.md (certificates).

It is exact and tests by brute force, so it is for scans of up to some twenty points.

  python3 dev/page_judge SCAN MESH CERT [V] [L]      the line that `recon check` has to print for a printed scan
"""
