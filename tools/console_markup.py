"""Makes HTML in which every text is escaped, for the console's page.

It is imported by tools/console_page.py, and not run by itself. A text becomes markup only by `element`, which escapes
it, so no text of a member, a file or a log can put markup on the page.
"""

import html
from typing import Iterable, Union

from wording import plain

# elements without an end
VOID = ("meta", "rect", "line")


class Markup(str):
    """A text that is markup already."""


Child = Union[str, Markup]


def escaped(text: Child) -> str:
    """Returns markup unchanged, and any other text with each special and each unprintable character escaped."""
    return text if isinstance(text, Markup) else html.escape(plain(text), quote=True)


def element(name: str, /, *children: Child, **attributes: Union[str, int, float, None]) -> Markup:
    """Returns an element. An attribute with the value `None` is left out; `_` in a name stands for `-`."""
    shown = "".join(
        f' {key.strip("_").replace("_", "-")}="{escaped(str(value))}"'
        for key, value in attributes.items()
        if value is not None
    )
    if name in VOID and not children:
        return Markup(f"<{name}{shown}>" if name == "meta" else f"<{name}{shown}/>")
    return Markup(f"<{name}{shown}>{''.join(map(escaped, children))}</{name}>")


def joined(parts: Iterable[Child], between: Child = "") -> Markup:
    """Returns the parts one after the other."""
    return Markup(escaped(between).join(map(escaped, parts)))
