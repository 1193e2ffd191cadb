"""What ./board does by no program: it proves, packs and installs."""
