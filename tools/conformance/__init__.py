"""The board as the reference for other monitors: what `tools/conform`, `tools/hunt` and `tools/adapters` share.

`scripts` has machines and what is asked of them, `reference` the board itself, `protocol` another monitor behind an
adapter, `serving` an adapter's own side, `compare` what the two answer otherwise and of which cause, `shrink` a shorter
script that shows it, `areas` and `hunting` what `tools/hunt` asks. README.md tells how they fit together.
"""
