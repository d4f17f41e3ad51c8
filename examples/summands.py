"""Who holds which summands of a value, and what that costs: the messages and the tape words of inputs, products, outputs and carried wires, as
'mpc check' counts them. Who holds what is said by a list of the groups that must learn nothing, or by a formula of those who may know everything."""

import itertools
import re

from job_folder import is_texts, need, need_names

MOST_TOLERATED = 4_096
MOST_GROUPS = 64
MOST_OPEN = 32
TOKEN = re.compile(r'[ \t\r\n]*([A-Za-z][A-Za-z0-9_]*|[0-9]{1,9}|[&|(),])')


def told(group):
    """A group as the program writes it."""
    return '+'.join(group) or '0'


def groups_of(text):
    """The groups that a text names, as ann+bob,cleo, where 0 is the group of nobody."""
    return [[] if group == '0' else group.split('+') for group in text.split(',')]


class Formula:
    """Which groups may know everything. A group is a mask, in which each party has a bit."""

    def __init__(self, text, parties):
        tokens, end = [], 0
        while match := TOKEN.match(text, end):
            tokens.append(match[1])
            end = match.end()
        need(not text[end:].strip(' \t\r\n'), 'the formula has something that is no name, number or sign')
        self.tokens, self.parties, self.open = tokens[::-1], parties, 0
        self.holds = self.read('|')
        need(not self.tokens, 'the formula goes on where it should end')

    def take(self, *wanted):
        token = self.tokens.pop() if self.tokens else ''
        need(token and (not wanted or token in wanted), f'the formula has {token[:40]!r} where it should have {" or ".join(wanted) or "a name"}')
        return token

    def read(self, sign):
        """Parts with a sign between them: of '|' one must hold, of '&' and of ',' all are told."""
        below = {'|': lambda: self.read('&'), '&': self.factor, ',': lambda: self.read('|')}[sign]
        parts = [below()]
        while self.tokens and self.tokens[-1] == sign:
            self.take()
            parts.append(below())
        whole = {'|': any, '&': all}.get(sign)
        return parts if whole is None else parts[0] if len(parts) == 1 else lambda mask: whole(part(mask) for part in parts)

    def within(self, sign):
        """What stands in parentheses."""
        self.take('(')
        self.open += 1
        need(self.open <= MOST_OPEN, f'the formula has more than {MOST_OPEN} open parentheses')
        parts = self.read(sign)
        self.take(')')
        self.open -= 1
        return parts

    def factor(self):
        if self.tokens and self.tokens[-1] == '(':
            return self.within('|')
        token = self.take()
        if token.isdigit():
            self.take('of')
            parts = self.within(',')
            need(1 <= int(token) <= len(parts), f'the formula wants {token} of {len(parts)} parts')
            return lambda mask: sum(part(mask) for part in parts) >= int(token)
        need(token in self.parties, f'the formula has {token[:40]!r}, which is no party')
        place = self.parties.index(token)
        return lambda mask: bool(mask >> place & 1)


def tolerated_of(fields):
    """The groups that must learn nothing, as the fields of job.toml say it: those of its list, or the largest ones of which its formula is false."""
    parties, formula, listed = fields['parties'], fields.get('formula'), fields.get('tolerated')
    if 'tolerated' in fields:
        need(isinstance(listed, list) and all(map(is_texts, listed)), 'tolerated is no list of lists of names')
        return listed
    need(isinstance(formula, str), 'job.toml has no formula and no list of tolerated groups')
    holds = Formula(formula, parties).holds
    bits = [1 << number for number in range(len(parties))]
    tolerated = {mask for mask in range(2**len(parties)) if not holds(mask)}
    largest = [mask for mask in tolerated if not any(mask | bit in tolerated for bit in bits if not mask & bit)]
    return [[name for name, bit in zip(parties, bits) if mask & bit] for mask in sorted(largest)]


def knowing(parties, tolerated):
    """The parties that stand in no group which must learn nothing: each of them by itself holds every summand, and may know everything."""
    return [name for name in parties if not any(name in group for group in tolerated)]


class Sharing:
    """The parties, and the largest groups of them that must learn nothing. A value has a summand for each of these groups, which those hold
    who aren't in it."""

    def __init__(self, parties, tolerated):
        need_names(parties)
        need(len(tolerated) <= MOST_TOLERATED, f'a job lists at most {MOST_TOLERATED} tolerated groups')
        for group in tolerated:
            need(set(group) <= set(parties) and len(set(group)) == len(group), f'{told(group)[:40]!r} is no group of parties')
        self.parties, self.tolerated = parties, tolerated
        masks = {sum(1 << parties.index(name) for name in group) for group in tolerated} or {0}
        self.groups = sorted(mask for mask in masks if not any(mask != other and mask & other == mask for other in masks))
        need(len(self.groups) <= MOST_GROUPS, f'there are more than {MOST_GROUPS} largest tolerated groups')
        self.need_products()
        self.numbers = {name: number for number, name in enumerate(parties)}
        self.all_held = sum(map(self.held, parties))
        # A pair of summands is multiplied by the first party that has both.
        least = {next(number for number in range(len(parties)) if not (one | other) >> number & 1) for one in self.groups for other in self.groups}
        self.dealers = [name for name in parties if self.numbers[name] in least]

    def need_products(self):
        """Two groups that are all parties together leave nobody who could multiply their summands."""
        everybody = 2**len(self.parties) - 1
        for one, other in itertools.combinations_with_replacement(self.groups, 2):
            texts = [told([name for number, name in enumerate(self.parties) if mask >> number & 1]) for mask in (one, other)]
            need(one | other != everybody, f'{texts[0]} and {texts[1]} are all parties, and both must learn nothing: nobody could multiply')

    def held(self, party):
        """How many summands a party holds."""
        return sum(not mask >> self.numbers[party] & 1 for mask in self.groups)

    def lacked(self, group, party):
        """Whether a party lacks the summand of a group."""
        return bool(self.groups[group] >> self.numbers[party] & 1)

    def deal(self, dealer):
        """Who gets messages of a party that deals a value: for each summand those who hold it, but for the dealer."""
        return [(dealer, name) for group in range(len(self.groups)) for name in self.parties if name != dealer and not self.lacked(group, name)]

    def least_holder(self, group):
        return next(name for name in self.parties if not self.lacked(group, name))

    def opening(self, readers):
        """Who sends what to whom where a wire is opened to these: the summands that each of them lacks, from their least holders."""
        return [(self.least_holder(group), name) for name in self.parties if name in readers for group in range(len(self.groups)) if self.lacked(group, name)]

    def mask(self):
        """Who sends what to whom of a random wire: each summand is drawn by its least holder, and goes to the others who hold it."""
        return [(self.least_holder(group), name) for group in range(len(self.groups)) for name in self.parties
                if name != self.least_holder(group) and not self.lacked(group, name)]

    def product(self):
        return [pair for dealer in self.dealers for pair in self.deal(dealer)]

    def prepared(self):
        """Of a product that is prepared: what is sent before the inputs, of two masks and their product; and then of its two openings."""
        return 2 * self.mask() + self.product(), 2 * self.opening(self.parties)

    def of_input(self, owner):
        """The messages of a wire that a party gives: each summand goes to those who hold it, but for the owner."""
        return self.all_held - self.held(owner)

    def of_product(self):
        return sum(map(self.of_input, self.dealers))

    def of_output(self, readers):
        """The messages of a wire that these read: the summands that each of them lacks."""
        return sum(len(self.groups) - self.held(reader) for reader in readers)

    def of_carried(self):
        """The messages of a wire that is carried into one later session: whoever holds a summand keeps it."""
        return self.all_held

    def words(self, party, inputs, products):
        """The tape words that a party draws, where it gives so many wires."""
        return (len(self.groups) - 1) * (inputs + (products if party in self.dealers else 0))
