"""Draws random stations: lines of elements side by side, joined by their points, and routes over them."""

from drawing import DERAILER, END, FRONT, POINT, PORTS, REAR, SIGNAL, TRACK, Bytes, Drawing, Element, Route, Sheet

WEIGHTS = {TRACK: 2, POINT: 5, DERAILER: 1, SIGNAL: 5}


def encode(elements, routes):
    return bytes([len(elements), len(routes)]) + b"".join(map(encode_element, elements)) + b"".join(map(encode_route, routes))


def encode_element(element):
    fields = [element.kind_field and [element.kind_field], *element.joins]
    fields += [None if value is None else [value] for value in (element.section, element.dual, element.sort, element.marks)]
    return encode_fields(fields)


def encode_route(route):
    counted = [numbers and [len(numbers), *numbers] for numbers in (route.path, route.overlap)]
    return encode_fields([[1] if route.train else None, *counted, [1] if route.zero else None])


def encode_fields(fields):
    mapped = sum(1 << bit for bit, content in enumerate(fields) if content)
    return bytes([mapped, *(value for content in fields if content for value in content)])


def draw(random, careful=True):
    """A station as its bytes, of any size up to 96 elements and 64 routes. It passes all checks, fault 9 only if careful."""
    elements = draw_elements(random)
    while len(elements) > 96:
        elements = draw_elements(random)
    drawing = Drawing(elements, [])
    drawing.check_elements()
    most = random.choice((1, 3, 10, 30, 64))
    for _ in range(300):
        route = draw_route(random, drawing, careful)
        if route and len(drawing.routes) < most and route not in drawing.routes:
            drawing.routes.append(route)
    return encode(elements, drawing.routes)


def draw_elements(random):
    kinds, joins, loose = [], [], []
    for _ in range(random.choice((1, 2, 3, 4, 6, 9))):
        draw_line(random, kinds, joins, loose)
    join_loose(random, joins, loose)
    for number, port in loose:
        kinds.append(END)
        joins.append({})
        connect(joins, (number, port), (len(kinds) - 1, 0))
    order = list(range(len(kinds)))
    if random.random() < 0.5:
        random.shuffle(order)
    sections = random.choice((1, 12, 40, 64, 64))
    elements = [None] * len(kinds)
    for number, kind in enumerate(kinds):
        elements[order[number]] = draw_element(random, kind, joins[number], order, sections)
    return elements


def connect(joins, one, other):
    joins[one[0]][one[1]] = other
    joins[other[0]][other[1]] = one


def draw_line(random, kinds, joins, loose):
    """One line from left to right: each element has a port to the left and one to the right; a point has a loose one besides."""
    left = None
    for _ in range(random.randint(2, 11)):
        kind = random.choices(list(WEIGHTS), WEIGHTS.values())[0]
        ports = [0, random.choice((1, 2)) if kind == POINT else 1]
        random.shuffle(ports)
        number = len(kinds)
        kinds.append(kind)
        joins.append({})
        loose += [(number, port) for port in range(PORTS[kind]) if port not in ports]
        if left is None:
            loose.append((number, ports[0]))
        else:
            connect(joins, left, (number, ports[0]))
        left = (number, ports[1])
    loose.append(left)


def join_loose(random, joins, loose):
    """Joins loose ports in pairs, most of them, and never two elements twice."""
    random.shuffle(loose)
    keep = random.choice((0.0, 0.2, 0.5)) * len(loose)
    for _ in range(4 * len(loose)):
        if len(loose) < 2 or len(loose) <= keep:
            return
        one, other = loose[0], loose[1]
        if one[0] != other[0] and all(join[0] != other[0] for join in joins[one[0]].values()):
            connect(joins, one, other)
            del loose[:2]
        else:
            random.shuffle(loose)


def draw_element(random, kind, joins, order, sections):
    element = Element(kind_field=None if kind == TRACK else kind)
    for port, (other, other_port) in joins.items():
        element.joins[port] = (order[other], other_port)
    if kind in (TRACK, POINT, DERAILER):
        element.section = random.randrange(sections)
    if kind == POINT and random.random() < 0.3:
        element.dual = random.randint(0, 2)
    if kind == SIGNAL:
        element.sort = random.choice((0, 1, 1, 1, 2))
        element.marks = random.choice((None, None, 1, 2, 3))
        if element.sort == 2 and element.marks in (1, 3):
            element.marks = 2
    return element


def draw_route(random, drawing, careful):
    """A route that passes all checks, or none where the walk did not come to one."""
    signals = [number for number in range(len(drawing.elements)) if drawing.kind(number) == SIGNAL]
    if not signals:
        return None
    path = draw_path(random, drawing, random.choice(signals))
    if path is None:
        return None
    sort = drawing.elements[path[0]].sort
    route = Route(train=sort == 2 or sort == 1 and random.random() < 0.7, path=path)
    finish = random.choice(("overlap", "zero", "neither", "neither"))
    if route.train and finish == "zero":
        route.zero = True
    if route.train and finish == "overlap" and drawing.kind(path[-1]) == SIGNAL:
        route.overlap = draw_overlap(random, drawing, path)
    if not drawing.path_sound(route) or not drawing.overlap_allowed(route):
        return None
    return None if careful and Sheet(drawing, route).both_ways else route


def onward(random, drawing, number, entered):
    if drawing.kind(number) != POINT:
        return 1 - entered
    return 0 if entered else random.choice((1, 2))


def draw_path(random, drawing, first):
    path, left = [first], FRONT
    while len(path) < 24:
        met, entered = drawing.elements[path[-1]].joins[left]
        kind = drawing.kind(met)
        if met in path or kind == END:
            return None
        path.append(met)
        ends = kind == TRACK and random.random() < 0.3 or kind == SIGNAL and entered == REAR and random.random() < 0.6
        if ends and any(drawing.kind(number) != SIGNAL for number in path[1:-1]):
            return path
        left = onward(random, drawing, met, entered)
    return None


def draw_overlap(random, drawing, path):
    overlap, left = [], FRONT
    while len(overlap) < 8:
        met, entered = drawing.elements[(overlap or path)[-1]].joins[left]
        if met in path or met in overlap:
            return None
        overlap.append(met)
        kind = drawing.kind(met)
        if kind == END or kind != POINT and random.random() < 0.4:
            return overlap
        left = onward(random, drawing, met, entered)
    return None


def spoil(random, content):
    """The bytes of a station with a few fields of one element or one route changed. They may pass all checks all the same."""
    taken = Bytes(content)
    counts = taken.take(), taken.take()
    elements, routes = [taken.element() for _ in range(counts[0])], [taken.route() for _ in range(counts[1])]
    if routes and random.random() < 0.7:
        spoil_route(random, elements, random.choice(routes))
    else:
        spoil_element(random, elements, random.choice(elements))
    return encode(elements, routes)


def spoil_element(random, elements, element):
    change = random.randrange(8)
    if change == 0:
        element.kind_field = random.choice((None, 1, 2, 3, 4))
    elif change == 1:
        element.joins[random.randrange(3)] = random.choice((None, (random.randrange(len(elements) + 1), random.randrange(3))))
    elif change == 2:
        element.section = random.choice((None, 0, 63))
    elif change == 3:
        element.dual = random.choice((None, 0, 1, 2))
    elif change == 4:
        element.sort = random.choice((None, 0, 1, 2))
    elif change == 5:
        element.marks = random.choice((None, 1, 2, 3))
    elif element.kind == SIGNAL:
        element.sort, element.marks = random.choice(((2, 1), (2, 2), (2, 3), (1, 3), (0, 1)))
    else:
        ports = random.sample(range(3), 2)
        element.joins[ports[0]], element.joins[ports[1]] = element.joins[ports[1]], element.joins[ports[0]]


def neighbours(elements, number):
    return [join[0] for join in elements[number].joins if join] if number < len(elements) else []


def spoil_route(random, elements, route):
    change = random.randrange(8)
    if change == 0:
        route.train = not route.train
    elif change == 1:
        route.zero = not route.zero
    elif change == 2:
        route.path = random.choice((None, route.path[::-1], route.path[:-1], route.path[1:]))
    elif change == 3:
        route.path = spoil_numbers(random, elements, route.path, 24)
    elif change == 4 and route.overlap:
        route.overlap = random.choice((None, route.overlap[::-1], route.overlap[:-1], route.overlap[1:]))
    elif change == 5 and route.overlap:
        route.overlap = spoil_numbers(random, elements, route.overlap, 8)
    else:
        beyond = [neighbours(elements, route.path[-1])[-1]]
        while len(beyond) < random.randrange(1, 8):
            beyond.append(random.choice(neighbours(elements, beyond[-1]) or [0]))
        route.overlap = beyond


def spoil_numbers(random, elements, numbers, most):
    changed, at = list(numbers), random.randrange(len(numbers))
    change = random.randrange(4)
    if change == 0:
        changed[at] = random.randrange(256)
    elif change == 1:
        changed[at] = random.choice(neighbours(elements, changed[at]) or [0])
    elif change == 2:
        changed[at] = random.choice(numbers)
    else:
        changed.append(random.choice(neighbours(elements, changed[-1]) or [0]))
    return changed[:most]
