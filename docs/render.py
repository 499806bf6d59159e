"""Draws frames of a run side by side: python3 docs/render.py OUT.png FRAME.msh..

A frame is a mesh as `ipc` writes it. Of its tetrahedra the surface is drawn, coloured by physical tag, with its edges,
by one view for all frames; what is above throws a shadow. Nothing but Python's standard library is needed.
docs/landing.png was made from frames of scenes/land.toml, where they were written:
    python3 docs/render.py docs/landing.png land_0000.msh land_0015.msh land_0030.msh
"""
import math, struct, sys, zlib

WIDTH, HEIGHT, FINE = 380, 310, 2  # pixels of one frame, and how many dots a pixel has along each axis
FACES = ((1, 2, 3), (0, 3, 2), (0, 1, 3), (0, 2, 1))
COLOURS = {1: (165, 175, 190), 2: (250, 160, 75)}
AROUND, ABOVE = math.radians(25), math.radians(7)
RIGHT = (math.cos(AROUND), math.sin(AROUND), 0)
TOWARD = (math.sin(AROUND) * math.cos(ABOVE), -math.cos(AROUND) * math.cos(ABOVE), math.sin(ABOVE))


def dot(a, b):
    return sum(p * q for p, q in zip(a, b))


def cross(a, b):
    return (a[1] * b[2] - a[2] * b[1], a[2] * b[0] - a[0] * b[2], a[0] * b[1] - a[1] * b[0])


UP = cross(TOWARD, RIGHT)


def seen_from_us(place):
    return dot(RIGHT, place), dot(UP, place), dot(TOWARD, place)


def read_surface(name):
    """The triangles that one tetrahedron alone has, turned outward: tag and three places of each."""
    rows = [line.split() for line in open(name)]
    nodes, elements = rows.index(["$Nodes"]), rows.index(["$Elements"])
    places = {row[0]: tuple(map(float, row[1:])) for row in rows[nodes + 2:nodes + 2 + int(rows[nodes + 1][0])]}
    faces = {}
    for row in rows[elements + 2:elements + 2 + int(rows[elements + 1][0])]:
        for face in FACES:
            corners = [row[-4:][i] for i in face]
            faces.setdefault(tuple(sorted(corners)), []).append((int(row[3]), [places[c] for c in corners]))
    return [owners[0] for owners in faces.values() if len(owners) == 1]


def dots(a, b, c):
    """The dots in a triangle that is seen: column, row, depth, and the distance to the nearest edge."""
    area = (b[0] - a[0]) * (c[1] - a[1]) - (c[0] - a[0]) * (b[1] - a[1])
    if abs(area) < 1e-9:
        return
    heights = [abs(area) / math.dist(p[:2], q[:2]) for p, q in ((b, c), (c, a), (a, b))]
    for y in range(math.ceil(min(a[1], b[1], c[1])), math.floor(max(a[1], b[1], c[1])) + 1):
        for x in range(math.ceil(min(a[0], b[0], c[0])), math.floor(max(a[0], b[0], c[0])) + 1):
            v = ((x - a[0]) * (c[1] - a[1]) - (c[0] - a[0]) * (y - a[1])) / area
            w = ((b[0] - a[0]) * (y - a[1]) - (b[1] - a[1]) * (x - a[0])) / area
            parts = (1 - v - w, v, w)
            if min(parts) >= 0:
                yield x, y, dot(parts, (a[2], b[2], c[2])), min(p * h for p, h in zip(parts, heights))


def shadow_map(surface, scale):
    """How high the surface reaches above each cell of the ground."""
    highest = {}
    for _, corners in surface:
        for x, y, z, _ in dots(*[(p[0] * scale, p[1] * scale, p[2]) for p in corners]):
            highest[x, y] = max(z, highest.get((x, y), z))
    return highest


def draw(surface, low, scale):
    """The dots of a picture, as rows from above."""
    picture = [[(255, 255, 255)] * (WIDTH * FINE) for _ in range(HEIGHT * FINE)]
    depths = [[-math.inf] * (WIDTH * FINE) for _ in range(HEIGHT * FINE)]
    highest = shadow_map(surface, scale)
    for tag, corners in surface:
        normal = cross(*[[p - q for p, q in zip(corner, corners[0])] for corner in corners[1:]])
        facing, level = dot(normal, TOWARD) / math.hypot(*normal), normal[2] / math.hypot(*normal)
        light = 0.68 + 0.17 * facing + 0.2 * level
        seen = [((p[0] - low[0]) * scale, (p[1] - low[1]) * scale, p[2]) for p in map(seen_from_us, corners)]
        for x, y, depth, edge in dots(*seen) if facing > 0 else ():
            if depth > depths[-1 - y][x]:
                depths[-1 - y][x] = depth
                across, up = x / scale + low[0], y / scale + low[1]
                place = [RIGHT[c] * across + UP[c] * up + TOWARD[c] * depth for c in range(3)]
                above = highest.get((round(place[0] * scale), round(place[1] * scale)), place[2])
                dark = level > 0.5 and above > place[2] + 8 / scale
                shade = light * (0.65 if dark else 1) * (0.75 if edge < 0.7 else 1)
                picture[-1 - y][x] = tuple(min(255, int(part * shade)) for part in COLOURS.get(tag, COLOURS[1]))
    return picture


def pixels(picture, y):
    """A row of pixels, each the mean of its dots."""
    rows = picture[y * FINE:(y + 1) * FINE]
    for x in range(0, WIDTH * FINE, FINE):
        spots = [spot for row in rows for spot in row[x:x + FINE]]
        yield from (sum(part) // len(spots) for part in zip(*spots))


def write_png(name, width, rows):
    """A picture of 8 bits a colour; each row is a list of bytes."""
    def chunk(kind, data):
        return struct.pack(">I", len(data)) + kind + data + struct.pack(">I", zlib.crc32(kind + data))
    head = struct.pack(">IIBBBBB", width, len(rows), 8, 2, 0, 0, 0)
    data = zlib.compress(b"".join(b"\0" + bytes(row) for row in rows), 9)
    with open(name, "wb") as out:
        out.write(b"\x89PNG\r\n\x1a\n" + chunk(b"IHDR", head) + chunk(b"IDAT", data) + chunk(b"IEND", b""))


def main(name, frames):
    surfaces = [read_surface(frame) for frame in frames]
    seen = [seen_from_us(p) for surface in surfaces for _, corners in surface for p in corners]
    low, high = ([bound(p[c] for p in seen) for c in (0, 1)] for bound in (min, max))
    scale = FINE * min((WIDTH - 10) / (high[0] - low[0]), (HEIGHT - 10) / (high[1] - low[1]))
    low = [part - 5 * FINE / scale for part in low]
    pictures = [draw(surface, low, scale) for surface in surfaces]
    write_png(name, WIDTH * len(frames), [[b for p in pictures for b in pixels(p, y)] for y in range(HEIGHT)])


main(sys.argv[1], sys.argv[2:])
