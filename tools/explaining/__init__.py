"""What tools/explain is made of. README.md says which file does what."""
