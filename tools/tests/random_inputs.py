"""Models and messages at random, small but with every construct, for the comparison with the program."""

HORIZON = 300


def random_input(chance):
    """The text of a model, `begin` and messages; `chance` is a random.Random."""
    kinds = ['k%d' % number for number in range(chance.randint(3, 6))]
    lines = ['horizon %d' % HORIZON, 'lead %d' % chance.choice((10, 40, 90))]
    lines += timelines()
    # A kind may contain the kinds before it alone, so that none contains itself.
    for number, kind in enumerate(kinds):
        lines.append(random_kind(chance, kind, kinds, kinds[:number]))
    return '\n'.join(lines + ['begin'] + random_messages(chance, kinds)) + '\n'


def timelines():
    return ['capacity power 10', 'level memory 0 60 20', 'level fuel 5 40 30', 'state mode { off warm on } start off step off warm step warm on step on off',
            'state dish { stowed up } start stowed any']


def random_kind(chance, kind, kinds, lower):
    parts = ['kind %s {' % kind]
    parts.append('param n 1 %d%s' % (chance.randint(1, 12), chance.choice(('', ' default 1', ' default 1', ' default 1'))))
    if chance.random() < 0.5:
        parts.append('param m 1 %d = %s' % (chance.randint(4, 40), chance.choice(('n * 3', 'n + 2', 'max ( n , 4 )', 'min ( n * n , 30 ) - 1'))))
    parts.append('duration %s' % chance.choice(('5', 'n', 'n * 2', 'n + 3', '12')))
    for _ in range(chance.randint(0, 3)):
        parts.append(random_reservation(chance))
    if chance.random() < 0.2:
        low = chance.randint(-60, 0)
        parts.append('link %s %s %s %d %d' % (point(chance), chance.choice(kinds), point(chance), low, low + chance.randint(0, 60)))
    if lower and chance.random() < 0.6:
        for _ in range(chance.randint(1, 2)):
            parts.append(random_alternative(chance, lower))
    return ' '.join(parts) + ' }'


def point(chance):
    return chance.choice(('start', 'end'))


def random_reservation(chance):
    amount = chance.choice(('3', '6', 'n', 'n * 2', 'n - 3'))
    return chance.choice((
        'use power %s' % chance.choice(('3', '6', '6', 'n + 5')),
        'use power %s' % amount,
        'raise %s %s at %s' % (chance.choice(('memory', 'fuel')), amount, point(chance)),
        'lower %s %s at %s' % (chance.choice(('memory', 'fuel')), amount, point(chance)),
        'set mode %s at %s' % (chance.choice(('off', 'warm', 'on')), point(chance)),
        'set dish %s at %s' % (chance.choice(('stowed', 'up')), point(chance)),
        'must mode %s' % chance.choice(('off', 'off', 'warm', 'on')),
        'must dish %s' % chance.choice(('stowed', 'stowed', 'up'))))


def random_alternative(chance, lower):
    slots = []
    for name in ('a', 'b')[:chance.randint(1, 2)]:
        bindings = chance.choice(('', ' ( n = n )', ' ( n = n + 1 )', ' ( n = min ( n , 2 ) * 3 )'))
        slots.append('slot %s %s%s' % (name, chance.choice(lower), bindings))
    orders = []
    if len(slots) == 2 and chance.random() < 0.8:
        orders.append('order a end b start 0 %d' % chance.randint(0, 20))
    if chance.random() < 0.4:
        orders.append('order a end parent end -40 %d' % chance.randint(0, 40))
    return 'alternative { %s }' % ' '.join(slots + orders)


def random_messages(chance, kinds):
    lines, now = [], 0
    for number in range(1, chance.randint(8, 22)):
        draw = chance.random()
        if draw < 0.45:
            earliest = chance.randint(now, HORIZON - 1)
            latest = min(HORIZON - 1, earliest + chance.choice((0, 3, 10, 60)))
            preset = chance.choice(('', '', ' n=1', ' n=2'))
            lines.append('goal %d %s %d %d %s%s' % (number, chance.choice(kinds), earliest, latest, chance.choice(('must', 'must', 'must', 'may')), preset))
        elif draw < 0.6:
            lines.append('tele ' + chance.choice(('memory %d' % chance.randint(0, 80), 'fuel %d' % chance.randint(0, 45),
                                                  'mode %s' % chance.choice(('off', 'warm', 'on')), 'dish up')))
        elif draw < 0.64:
            lines.append('until %d %d' % (chance.randint(1, 9), min(HORIZON, now + chance.randint(0, 30))))
        elif draw < 0.66:
            lines.append('halt')
        else:
            now += chance.randint(0, 30)
            lines.append('tick %d' % now)
    return lines + (['end'] if chance.random() < 0.7 else [])
