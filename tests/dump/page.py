"""Reads a page that doordump writes."""
import collections
import html.parser

ELEMENTS = set('html head meta title style body h1 h2 h3 section div p ul li dl dt dd a'.split())
ATTRIBUTES = {'class', 'lang', 'charset', 'name', 'content'}


def flat(text):
    return ' '.join(text.split())


class Page(html.parser.HTMLParser):
    """A page: what is wrong with its form, and its text, with a gap at each block."""
    EMPTY, INLINE = {'meta'}, {'a'}

    def __init__(self, text):
        super().__init__()
        self.open, self.ids, self.links, self.tags, self.text, self.wrong = [], [], [], set(), '', []
        self.feed(text)
        self.close()
        self.text = flat(self.text)
        self.wrong += [f'{tag} is not closed' for tag in self.open]
        self.wrong += [f'two ids {name}' for name, count in collections.Counter(self.ids).items() if count > 1]
        self.wrong += [f'no id for {link}' for link in set(self.links) - {f'#{name}' for name in self.ids}]
        self.wrong += [f'the element {tag}' for tag in self.tags - ELEMENTS]

    def handle_starttag(self, tag, attrs):
        self.tags.add(tag)
        for name, value in attrs:
            if name == 'id':
                self.ids.append(value)
            elif name == 'href':
                self.links.append(value)
            elif name not in ATTRIBUTES:
                self.wrong.append(f'the attribute {name}')
        if tag not in self.EMPTY:
            self.open.append(tag)
        self.gap(tag)

    def handle_endtag(self, tag):
        if not self.open or self.open.pop() != tag:
            self.wrong.append(f'{tag} is closed and is not open')
        self.gap(tag)

    def handle_data(self, data):
        if 'style' not in self.open:
            self.text += data

    def gap(self, tag):
        if tag not in self.INLINE:
            self.text += ' '
