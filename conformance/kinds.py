"""Kinds of error, as the column `kind` of rejected.tsv has them, from the library's messages."""

# The first word of a reason, and the kind of error that it means.
KINDS = (
    ("not UTF-8", "encoding"),
    ("invalid CVSS metric group component:", "component"),
    ("invalid CVSS string prefix:", "prefix"),
    ("unsupported CVSS version:", "version"),
    ("unknown CVSS metric name:", "name"),
    ("invalid CVSSv", "value"),
    ("duplicate CVSSv", "repeat"),
    ("missing mandatory CVSSv", "missing"),
)


def kind_of(reason):
    """The kind of error of a reason; `other` if the table has none."""
    return next((kind for words, kind in KINDS if reason.startswith(words)), "other")
