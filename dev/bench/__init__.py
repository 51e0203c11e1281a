"""Measurements of programs and of meshes."""
