"""Random texts from tables of forms.

A form is a text in which each word of two capital letters or more stands for a form of that name, `$` for a number
that no other form has, and a line's indentation for that of all that comes in its place. Of the forms of a name one is
taken; where the text is deep enough, one of its leaves, if it has any.
"""

import contextlib
import re

WORD = re.compile(r'\b[A-Z]{2,}\b')


def row(text):
    """The forms of a text in which they stand with two spaces or a line end between them."""
    return re.split(r'\s*\n\s*|  +', text.strip())


class Grammar:
    def __init__(self, random, forms, leaves):
        self.random, self.forms, self.leaves, self.count = random, forms, leaves, 0

    def parts(self, count, depth):
        """Parts of a script, leaving out those that Python doesn't read."""
        found = []
        while len(found) < count:
            part = self.one('PART', depth)
            with contextlib.suppress(SyntaxError):
                compile(part, 'part', 'exec')
                found.append(part)
        return found

    def one(self, word, depth):
        is_leaf = depth <= 0 or self.random.random() < 0.2
        forms = self.leaves.get(word) if is_leaf else self.forms.get(word)
        return self.filled(self.random.choice(forms or self.forms.get(word) or self.leaves[word]), depth - 1)

    def filled(self, form, depth):
        if '$' in form:
            self.count += 1
            form = form.replace('$', str(self.count))
        lines = []
        for line in form.split('\n'):
            indentation = line[:len(line) - len(line.lstrip(' '))]
            filled = WORD.sub(lambda found: self.one(found[0], depth), line)
            lines.append(filled.replace('\n', '\n' + indentation))
        return '\n'.join(lines)
