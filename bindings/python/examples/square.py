"""The example session of document 01: a square of radius 1, cut twice at x = 0 with both sides kept."""

from spoonvelvet import ElementId, Hyperplane, Table

table = Table.with_primordial_cube_radius(2, 1.0)
divider = Hyperplane((1.0, 0.0), 0.0)
for _ in range(2):
    print(table.slice(divider, ElementId(8)), table.counts())
