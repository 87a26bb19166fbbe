"""The documents and schemas that the benchmarks share."""

SIDES = 1_000
ELEMENTS = 200_000
BOOK_BYTES = 3_000_000
LARGE_SCHEMA = (
    "start = element doc { attribute id { xsd:NCName }, element title { text }, "
    "element para { (text | element em { text })* }* }\n"
)

# Names and common attributes of DocBook.
ATTRIBUTES = "role xml:lang condition os arch revision security userlevel vendor wordsize annotations remap".split()
INLINES = (
    "emphasis literal code filename command option parameter replaceable varname constant function classname methodname type "
    "envar keycap menuchoice guilabel guibutton guimenu systemitem prompt userinput computeroutput citetitle quote abbrev acronym "
    "firstterm glossterm foreignphrase phrase productname subscript superscript trademark uri email symbol tag"
).split()
ADMONITIONS = "note tip warning caution important".split()
VERBATIM = "programlisting screen literallayout synopsis address".split()


def congruence(number):
    """Numbers of a linear congruence, from this one on."""
    while True:
        number = (number * 1103515245 + 12345) % 2147483648
        yield number


def large_document(seed, pieces):
    """The large document of so many pieces, as `make` makes it: paragraphs of numbers, a comment every 100."""
    parts = [f"<doc id='g'><title>{seed}</title>"]
    for i, number in zip(range(pieces), congruence(seed)):
        if i % 100 == 0:
            parts.append(f"<!--{i}-->")
        if number // 65536 % 2 == 0:
            parts.append(f"<para>w<em>{number}</em></para>\n")
        else:
            parts.append(f"<para>{number}</para>\n")
    parts.append("</doc>")
    return "".join(parts)


def book_schema():
    """The schema of the book: each element has the common attributes, and inlines and blocks may nest."""
    inlines = " | ".join(INLINES)
    attributes = "\n".join(f"  & attribute {name} {{ text }}?" for name in ATTRIBUTES)
    rules = [
        "start = book",
        f"common = attribute xml:id {{ text }}?\n{attributes}",
        f"inline = (text | {inlines})*",
        f"block = para | simpara | itemizedlist | orderedlist | variablelist | table | {' | '.join(ADMONITIONS + VERBATIM)}",
        "title = element title { common, inline }",
        "info = element info { common, (title? & element author { common, text }* & element date { common, text }?) }",
        "book = element book { common, info?, title, chapter+ }",
        "chapter = element chapter { common, info?, title, block*, section* }",
        "section = element section { common, info?, title, block*, section* }",
        "listitem = element listitem { common, block+ }",
        "itemizedlist = element itemizedlist { common, title?, listitem+ }",
        "orderedlist = element orderedlist { common, title?, listitem+ }",
        "variablelist = element variablelist { common, title?, element varlistentry { common, element term { common, inline }+, listitem }+ }",
        "row = element row { common, element entry { common, (inline | block+) }+ }",
        "table = element table { common, title?, tgroup }",
        "tgroup = element tgroup { common, attribute cols { text }, element thead { row+ }?, element tbody { row+ } }",
    ]
    rules += [f"{name} = element {name} {{ common, inline }}" for name in ["para", "simpara", *INLINES, *VERBATIM]]
    rules += [f"{name} = element {name} {{ common, title?, block+ }}" for name in ADMONITIONS]
    return "\n".join(rules) + "\n"


def write_book(path):
    """Writes a book of BOOK_BYTES and a little more, by a linear congruence."""
    numbers = congruence(7)
    number = 7

    def chosen(count):
        nonlocal number
        number = next(numbers)
        return number // 65536 % count

    def words(count):
        parts = []
        for _ in range(count):
            name = INLINES[chosen(len(INLINES))]
            parts.append(f"some words of a line and <{name}>{chosen(1000)}</{name}>")
        return " ".join(parts)

    def block(depth):
        kind = chosen(8) if depth < 3 else 0
        if kind == 1:
            items = "".join(f"\n<listitem>{block(depth + 1)}</listitem>" for _ in range(1 + chosen(4)))
            return f"\n<itemizedlist>{items}\n</itemizedlist>"
        if kind == 2:
            items = "".join(
                f"\n<varlistentry><term>{words(1)}</term><listitem>{block(depth + 1)}</listitem></varlistentry>" for _ in range(1 + chosen(3))
            )
            return f"\n<variablelist>{items}\n</variablelist>"
        if kind == 3:
            name = ADMONITIONS[chosen(5)]
            return f"\n<{name} role='r{chosen(9)}'>{block(depth + 1)}\n</{name}>"
        if kind == 4:
            name = VERBATIM[chosen(5)]
            return f"\n<{name} xml:lang='en'>{words(2)}\n  and a line\n</{name}>"
        if kind == 5:
            rows = "".join(f"\n<row><entry>{words(1)}</entry><entry>{chosen(100)}</entry></row>" for _ in range(1 + chosen(4)))
            return f"\n<table><title>{words(1)}</title><tgroup cols='2'><tbody>{rows}\n</tbody></tgroup></table>"
        return f"\n<para xml:id='p{number}' role='r{chosen(9)}'>{words(2 + chosen(4))}.</para>"

    def section(depth):
        inner = "".join(section(depth + 1) for _ in range(chosen(3))) if depth < 3 else ""
        blocks = "".join(block(0) for _ in range(1 + chosen(6)))
        return f"\n<section xml:id='s{chosen(1000000)}'>\n<title>{words(1)}</title>{blocks}{inner}\n</section>"

    size = 0
    with open(path, "w", encoding="utf-8") as out:
        out.write("<book><title>A book</title>")
        while size < BOOK_BYTES:
            sections = "".join(section(0) for _ in range(5))
            size += out.write(f"\n<chapter>\n<title>{words(1)}</title>{sections}\n</chapter>")
        out.write("\n</book>\n")


def sides_schema():
    """The schema of a choice of so many sides."""
    names = [f"e{i}" for i in range(SIDES)]
    return f"start = element doc {{ ({' | '.join(names)})* }}\n" + "".join(f"{name} = element {name} {{ text }}\n" for name in names)


def write_sides(path):
    """Writes the document in whose choice each element is one of the sides."""
    with open(path, "w", encoding="utf-8") as out:
        out.write("<doc>")
        for _, number in zip(range(ELEMENTS), congruence(7)):
            name = f"e{number // 65536 % SIDES}"
            out.write(f"<{name}>{number % 1000}</{name}>\n")
        out.write("</doc>")
