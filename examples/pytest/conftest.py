"""The fixture `board`, and failures that say which register denied an access."""
pytest_plugins = ["board440fx.pytest_plugin"]
