"""The tables of crates/definition/specs, read from their text: the seven tables of words (Tables.antt) and the kinds' names
(Kinds.antt), which are numbered from 1."""
import pathlib
import re

SPECS = pathlib.Path(__file__).resolve().parent.parent / "crates" / "definition" / "specs"
TABLES = ["keywords", "constructors", "op_tokens", "uoperators", "early_literals", "kw_op_rules", "mixfix_rules"]
TEXT = r'"((?:[^"\\]|\\.)*)"'


def defined_entries(table):
    """The entries of a table in order, each its word, its kind, and its text or second kind, as they are spelled."""
    text = (SPECS / "Tables.antt").read_text(encoding="utf-8")
    begin = text.index("\n%s =" % table)
    return re.findall(r"\(%s, %s, %s\)" % (TEXT, TEXT, TEXT), text[begin : text.index("∷ []", begin)])


def kind_names():
    """The kinds' names, the first of which has the number 1."""
    text = (SPECS / "Kinds.antt").read_text(encoding="utf-8")
    begin = text.index("\nkind_names =")
    return re.findall(TEXT, text[begin : text.index("[]", begin)])
