"""`tools/man`: each page has what its documents have, each call of the library has one, and groff takes it without a
warning."""
import re
import shutil
import subprocess
import unittest

from pimtext.build import library
from tests import stored

man = stored.tool("man")
MARKDOWN = """\
# A title

## The first part

A *word*, a **bold one with `code`**, a [link](x.md#y) and `a|b \\n`;
\\* is a star. It isn't over.

| key | range | meaning |
|---|---|---|
| `a` | 1 to 2 | one \\| other |
| `b` | | |

- an item
  of two lines
1. a number

### Below

    .code 'as it is'

```
$ more
```

## The second part
"""
ROFF = r"""
.SH The first part
.PP
A \fIword\fR, a \fBbold one with \fBcode\fR\fR, a link and \fBa|b \en\fR; * is a star. It isn\(aqt over.
.TP
\fBa\fR
range: 1 to 2; meaning: one | other
.TP
\fBb\fR
\&
.PP
.IP \(bu 2
an item of two lines
.IP 1. 4
a number
.SS Below
.RS 4
.nf
\&.code \(aqas it is\(aq
.fi
.RE
.PP
.RS 4
.nf
$ more
.fi
.RE
.PP
"""


class Pages(unittest.TestCase):
    def test_markdown(self):
        lines, level = man.part(MARKDOWN.splitlines(), "The first part")
        self.assertEqual("\n".join(man.roff(lines, level)), ROFF.strip())

    def test_a_section_that_is_not_there(self):
        self.assertRaises(SystemExit, man.part, MARKDOWN.splitlines(), "The third part")

    def test_each_page(self):
        for name, made in man.every().items():
            text = made()
            if text.startswith(".so "):
                continue
            with self.subTest(name):
                self.assertIn("\n.SH NAME\n", text)
                # No markup is left.
                self.assertNotRegex(re.sub(r"(?s)\.nf.*?\.fi", "", text), r"\]\([\w./#-]+\)|\*\*|`")
                if shutil.which("groff"):
                    ran = subprocess.run(["groff", "-man", "-ww", "-Tutf8"], input=text, text=True, capture_output=True)
                    self.assertEqual(ran.stderr, "")

    def test_each_call_has_a_page_with_its_declaration_and_its_comment(self):
        pages = man.every()
        for name in library.names_of_calls():
            with self.subTest(name):
                text = pages[f"{name}.3"]()
                if text.startswith(".so "):
                    text = pages[text.removeprefix(".so man3/").strip()]()
                self.assertRegex(text, rf"(?m)^\.SH NAME\n.*\b{name}\b.* \\- \w")
                self.assertRegex(text, rf"(?m)^[a-z].* \*?{name}\(")
        self.assertIn("\nFrees the router and its memory. With NULL it does nothing.\n.RS 4\n.nf\nvoid viq_end(",
                      pages["viq_new.3"]())
        self.assertNotIn("VIQ_NOT_NULL", pages["viq_new.3"]())


if __name__ == "__main__":
    unittest.main()
