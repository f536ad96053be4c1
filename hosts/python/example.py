"""How the weights of a forearm joint move over the inner elbow when they are repainted.

Run it with `python3 example.py`, beside weight_mover.py and its shared library. In
Maya, Blender or Houdini positions, faces and weights come from the mesh and its skin.
"""

import math
from typing import List, Tuple

import weight_mover

# A patch of 3 x 3 vertices: positions in centimetres, and its four faces.
POSITIONS = [
    (0.00, 0.00, 0.31),
    (1.10, 0.05, 0.42),
    (2.20, 0.00, 0.30),
    (0.05, 1.25, 0.12),
    (1.12, 1.31, 0.20),
    (2.15, 1.24, 0.10),
    (0.00, 2.60, 0.35),
    (1.08, 2.64, 0.45),
    (2.21, 2.58, 0.33),
]
FACES = [(0, 1, 4, 3), (1, 2, 5, 4), (3, 4, 7, 6), (4, 5, 8, 7)]

# One joint's weights before and after. Both paintings must have the same total.
BEFORE = [0.00, 0.00, 0.00, 0.25, 0.40, 0.30, 0.90, 1.00, 0.95]
AFTER = [0.10, 0.20, 0.15, 0.45, 0.50, 0.45, 0.65, 0.70, 0.60]
GRAINS = 1000  # a weight of 1; amounts are whole numbers


def patch_edges() -> List[Tuple[int, int, int]]:
    """Each side of a face once, with its length: 1 cm is 1000 hundredths of 1 mm."""
    sides = set()
    for face in FACES:
        for a, b in zip(face, face[1:] + face[:1]):
            sides.add((min(a, b), max(a, b)))
    return [
        (a, b, round(1000 * math.dist(POSITIONS[a], POSITIONS[b]))) for a, b in sides
    ]


def amounts(weights: List[float]) -> List[int]:
    """The weights in grains."""
    return [round(GRAINS * weight) for weight in weights]


def main() -> None:
    edges, mu, nu = patch_edges(), amounts(BEFORE), amounts(AFTER)
    best = weight_mover.solve(edges, mu, nu)
    apart = weight_mover.distances(len(mu), edges)
    print(f"least cost {best.cost / GRAINS / 100:.2f}, in weight times mm")
    for start, end, grains in best.plan:
        weight = grains / GRAINS
        if start == end:
            print(f"  vertex {start} keeps {weight:.3f}")
        else:
            way = apart[start][end] / 100
            print(f"  vertex {start} gives {end} {weight:.3f} over {way:.2f} mm")

    # A tree of one's own: up the middle column, and along the rows from there.
    root, parents = 1, [1, 1, 1, 4, 1, 4, 7, 4, 7]
    own = weight_mover.evaluate(edges, mu, nu, root, parents)
    print(f"another tree costs {own.cost / GRAINS / 100:.2f}")
    print(f"  is it best? {weight_mover.is_optimal(edges, mu, nu, root, parents)}")
    print("its vertices, with imbalance in grains and potential in 1/100 mm:")
    print(weight_mover.write_page(edges, mu, nu, root, parents), end="")

    # Floats are weights as paint tools hold them: whole grains, and 1 in all at most.
    before, after = [0.75, 0.25] + 7 * [0.0], 7 * [0.0] + [0.5, 0.5]
    stroke = weight_mover.solve(edges, before, after)
    gives = weight_mover.to_weights(stroke.table[0])
    print(f"of a stroke, vertex 0 gives {gives[7]} to 7 and {gives[8]} to 8")

    # A brush: what it covers, and where there is weight next to a vertex without.
    covered = weight_mover.vertices_within(len(mu), edges, start=4, reach=1300)
    print(f"a brush of 13 mm at vertex 4 covers {covered}")
    near = weight_mover.nearest_vertex(edges, start=2, painting=mu)
    if near is not None:
        way = apart[2][near] / 100
        print(f"the weight nearest to vertex 2 is at {near}, {way:.2f} mm away")

    # A sequence in one reel, and its sheet; the totals of the second image differ.
    shots = [
        weight_mover.write(edges, mu, nu),
        weight_mover.write(edges, mu, [4000] + 8 * [0]),
        weight_mover.write(edges, mu, nu, root, parents),
    ]
    sheet = weight_mover.report(weight_mover.pack(shots))
    most = sheet.greatest / GRAINS / 100
    print(f"of {len(shots)} images {sheet.accepted} are accepted")
    print(f"  image {sheet.first} costs the most, {most:.2f}")
    for number, images in sheet.refused.items():
        print(f"  {images} refused by {number}: {weight_mover.refusal_text(number)}")

    # What is not sound is refused, with the reason.
    try:
        weight_mover.solve(edges, mu, [4000] + 8 * [0])
    except weight_mover.Refusal as refusal:
        print(refusal)


if __name__ == "__main__":
    main()
