"""What the tools beside luo share: reading its outputs and its sources, and running it."""
