"""Why a script, a log or words are refused, and what denied an access."""
