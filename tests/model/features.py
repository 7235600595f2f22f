"""The later forms of scripts and statements, each behind a switch: the second program runs with any of them.

Those that stand are there without a switch.
"""

FEATURES = frozenset("readonly savepoint settle checkpoint format".split())
BUILT = {"undo", "strength"}  # that every run has
STANDING = frozenset({"readonly", "savepoint"})


def features(text):
    """Those that stand, and those of a list of names with commas; `all` names all of them."""
    names = set(text.split(",")) - {""} - BUILT
    if "all" in names:
        return FEATURES
    if not names <= FEATURES:
        raise ValueError(f"there is no feature {', '.join(names - FEATURES)}")
    return STANDING | names


def asked(words):
    """The features that `--have F,F..` names, where it stands first, and the words behind it."""
    if words[:1] == ("--have",):
        return features(words[1]), words[2:]
    return STANDING, words
