"""The pages of tools/show."""
