"""The commands, one to a module: each has a SUMMARY, an EXAMPLE, `arguments` for the parser and `main`, which makes the report."""
NAMES = ["check", "spread", "compare", "diff", "short", "bounds", "run", "replay", "mend", "compose", "trim", "times", "find", "words", "names", "draw", "page", "play", "explain", "help", "completion"]
