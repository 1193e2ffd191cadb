"""One table of names: numbers.toml and registers.toml, and what tools/make-names makes of them."""
