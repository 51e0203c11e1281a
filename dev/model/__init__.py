"""What `recon` does, as a plain program: see README.md in this folder."""
