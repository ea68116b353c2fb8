"""What the scripts of tests/scenes share. tests/scenes/lib leads here, so that each of them also runs alone."""
