"""A check of HTML for tests: tags that are closed as they were opened, ids that are unique, and no text outside of the page."""
from html.parser import HTMLParser

VOID = {"meta", "input", "br", "link", "img", "hr"}


class Page(HTMLParser):
    """The elements of a page, and what is wrong with it.

    faults:   texts, none if the page is well-formed
    articles: the attributes of each article, by its id
    texts:    the text of each article, by its id
    """

    def __init__(self, text):
        super().__init__(convert_charrefs=True)
        self.faults, self.articles, self.texts, self.ids = [], {}, {}, set()
        self._open, self._article = [], ""
        self.feed(text)
        self.close()
        self.faults += [f"left open: {tag}" for tag in self._open]

    def handle_starttag(self, tag, attributes):
        self._element(tag, dict(attributes), attributes)
        if tag not in VOID:
            self._open.append(tag)

    def handle_startendtag(self, tag, attributes):
        self._element(tag, dict(attributes), attributes)

    def _element(self, tag, named, attributes):
        if len(named) != len(attributes):
            self.faults.append(f"an attribute is twice in {tag}: {attributes}")
        for name, value in attributes:
            if not name.replace("-", "").isalnum():
                self.faults.append(f"no name of an attribute, in {tag}: {name!r}")
            if value and value.endswith("/") and tag in ("path", "rect", "text"):
                self.faults.append(f"an end in an attribute of {tag}: {value!r}")
        if named.get("id", "") in self.ids:
            self.faults.append(f"twice: {named['id']}")
        self.ids.update([named["id"]] if "id" in named else [])
        if tag == "article":
            self._article = named["id"]
            self.articles[self._article], self.texts[self._article] = named, ""

    def handle_endtag(self, tag):
        if not self._open or self._open.pop() != tag:
            self.faults.append(f"line {self.getpos()[0]}: no {tag} is open here")
        if tag == "article":
            self._article = ""

    def handle_data(self, data):
        if self._article:
            self.texts[self._article] += data
        elif not self._open and data.strip():
            self.faults.append(f"text outside: {data!r}")

    def handle_comment(self, data):
        self.faults.append(f"a comment, a declaration or an instruction: {data!r}")

    unknown_decl = handle_pi = handle_comment
