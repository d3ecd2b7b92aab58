"""What ./plan runs: desk/README.md says which file does what."""
