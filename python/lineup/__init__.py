"""lineup: names, explanations, comparison and pictures around the proved checker of line-up schedules.

For Python programs: `lineup.check(net, sheet)` and the other names of `__all__`, each with its own help; python/README.md begins with ten lines that work.
They are loaded when the first of them is used, so that `import lineup` costs nothing."""

__all__ = [
    "Net", "Sheet", "Trouble", "bounds", "check", "check_all", "check_net", "compare", "compose", "fire", "mend", "over_library", "parse_net", "parse_sheet", "read_net", "read_sheet", "replay",
    "run", "sheet_of", "short_form", "text_of", "times", "trim", "why",
]


def __getattr__(name):
    if name not in __all__:
        raise AttributeError(f"module 'lineup' has no attribute {name!r}")
    from lineup import interface

    globals()[name] = getattr(interface, name)
    return globals()[name]


def __dir__():
    return sorted({*globals(), *__all__})
