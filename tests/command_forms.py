"""The forms of commands, as the usage lists them: words of each form, and the same with a word left out, put in or exchanged. What is of one of the
forms is taken, and all else is refused."""

import itertools

from other_words import USAGE
from product import Row, Without
from samples import OF_FIVE

# Of each form the words that stand first, and its options, each with a word behind it.
FORMS = []
for line in USAGE.splitlines()[1:]:
    first, *options = line.partition('mpc ')[2].split(' [')
    FORMS.append((first.split(), [option.rstrip(']').split() for option in options]))


def is_plain(word):
    return word != '' and not word.startswith('-')


def is_number(word, most):
    return word.isascii() and word.isdigit() and 1 <= int(word) <= most


# What stands in the place of a word in capitals, and one such word.
KINDS = {'DIR': is_plain, 'NAME': is_plain, 'GROUP': is_plain, 'N': lambda word: is_number(word, 65_536), 'W': lambda word: is_number(word, 16)}
SOME = {'DIR': 'd', 'NAME': 'a', 'GROUP': 'a', 'N': '5', 'W': '5'}

# What is put in, and stands in the place of others.
OTHERS = ['node', 'run', 'd', '5', '--view', '--workers', '--group']


def fits(part, words):
    """Whether the words are those of a part of a form."""
    return len(words) == len(part) and all(KINDS[word](found) if word in KINDS else found == word for word, found in zip(part, words))


def is_command(words):
    """Whether the words are of one of the forms: its first words, and then its options, each at most once and in any order."""
    return any(fits(first + sum(chosen, []), words) for first, options in FORMS for chosen in choices(options))


def choices(options):
    return [chosen for count in range(len(options) + 1) for chosen in itertools.permutations(options, count)]


def changed(words):
    """The words themselves, and with one word left out, put in or exchanged."""
    yield words
    for place in range(len(words) + 1):
        yield from (words[:place] + [other] + words[place:] for other in OTHERS)
        if place < len(words):
            yield words[:place] + words[place + 1:]
            yield from (words[:place] + [other] + words[place + 1:] for other in OTHERS)


def row(words):
    """What comes of the words in a folder without a job."""
    name, absent = ' '.join(words), [Without('job.toml')]
    if not is_command(words):
        return Row(name, words, absent, status=2, err=USAGE)
    return Row(name, words, absent, out=OF_FIVE) if words[0] == 'sample' else Row(name, words, absent, status=5, err='fault files file=job.toml\n')


ALL = {tuple(words) for first, options in FORMS for chosen in choices(options)
       for words in changed([SOME.get(word, word) for word in first + sum(chosen, [])])}
COMMAND_FORMS = [row(list(words)) for words in sorted(ALL)]
