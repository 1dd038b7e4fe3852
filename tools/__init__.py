"""The repository's tools, behind one command: `./tools/dev`."""
