"""The manual pages of the library for C, made of what its headers declare and say."""

import re

from pages import page_text

# The headers, with what each is for.
HEADERS = {"dnorm.h": "reader of DIMACS network instances", "dnorm_tools.h": "what programs need around dnorm.h"}
COMMENT = re.compile(r"/\* (.*?) ?\*/\n", re.S)
# A function that is declared, or an inline one, with its comment. Those behind macros are no names of their own.
FUNCTION = re.compile(
    r"/\* ((?:(?!\*/).)*) \*/\n(?:DNORM_INLINE )?((?:const )?\w+ \*?(dnorm_(?!inline_)\w+)\([^;{]*\))(?:;| \{)", re.S
)
TYPE = re.compile(r"/\* ((?:(?!\*/).)*) \*/\n((?:typedef struct|enum) .*?\}(?: \w+)?;\n)", re.S)
HEAD = """.\\" The manual page of {header}, by tools/generate.
.TH {title} 3 "" "{version}" "Library Functions Manual"
.SH NAME
{header}, {names} \\- {purpose}
.SH LIBRARY
.B libdnorm
.RI ( \\-ldnorm ,
or
.I libdnorm.a
alone)
.SH SYNOPSIS
.nf
.B #include <{header}>
.PP
"""
FOOT = """.SH SEE ALSO
.BR dnorm (1),
.BR {others} (3)
.PP
LIBRARY.md has examples in C, C++ and Rust, and REFUSALS.md says what the refusals of a text mean.
"""


def escaped(text: str) -> str:
    """Returns a text without signs that mean something else in a page."""
    text = text.replace("\\", "\\e").replace("-", "\\-").replace("^", "\\(ha").replace("'", "\\(aq")
    return re.sub(r"^\.", r"\\&.", text, flags=re.M)


def prose(text: str) -> str:
    """Returns the text of a comment, whose names in backquotes become bold."""
    joined = " ".join(text.split())
    return re.sub(r"`([^`]+)`", r"\\fB\1\\fR", escaped(joined))


def code(text: str) -> str:
    return f".EX\n{escaped(text)}\n.EE\n"


def described(comment: str) -> str:
    """Returns the paragraphs of a comment: what follows `Codes:` has one of its own."""
    parts = re.split(r"\s+(?=Codes:)", comment)
    return "\n.sp\n".join(map(prose, parts)) + "\n"


def introduction(comment: str) -> str:
    """Returns the comment at the head: paragraphs, an indented example and a numbered list."""
    made = ""
    for part in re.sub(r"^dnorm(?:_tools\.h)?: (\w)", lambda it: it[1].upper(), comment).split("\n\n"):
        if part.startswith("       "):
            made += f".PP\n.RS 4\n{code(re.sub('^ {7}', '', part, flags=re.M))}.RE\n"
        elif re.match(r" *1\. ", part):
            for item in re.split(r"\n(?=   \d\. )", part):
                number, _, rest = item.strip().partition(" ")
                made += f".IP {number} 4\n{prose(rest)}\n"
        else:
            made += f".PP\n{prose(part)}\n"
    return made


def page(header: str, version: str) -> str:
    """Returns the page of a header."""
    text = page_text(f"c/{header}")
    functions, types = FUNCTION.findall(text), TYPE.findall(text)
    head = COMMENT.search(text)
    assert head
    names = ", ".join(name for _, _, name in functions)
    facts = {"title": header.upper(), "header": header, "purpose": HEADERS[header]}
    made = HEAD.format(version=escaped(version), names=names, **facts)
    for _, declared, _ in functions:
        made += f".BI \"{escaped(' '.join(declared.split()))};\"\n"
    made += f".fi\n.SH DESCRIPTION\n{introduction(head[1])}.SH FUNCTIONS\n"
    for comment, _, name in functions:
        made += f".TP\n.B {name}\n{described(comment)}"
    made += ".SH TYPES AND CODES\n"
    for comment, declared in types:
        made += f".PP\n{described(comment)}.PP\n.RS 4\n{code(declared.rstrip())}.RE\n"
    return made + FOOT.format(others=" ".join(it for it in HEADERS if it != header))
