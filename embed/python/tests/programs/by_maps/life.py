from yuglemit.build import Int, Map, Out, Sum, control, each, leaf, out


@leaf
def spread(alive: Map[Int, Int], near: Out[Sum[Int]]) -> None:
    for cell in each(alive, 64):
        for place in range(9):
            if place != 4:
                out.near[(cell // 8 + place // 3 - 1) % 8 * 8 + (cell + place % 3 - 1) % 8] += 1


@leaf
def live(alive: Map[Int, Int], near: Sum[Int], after: Out[Map[Int, Int]]) -> None:
    for cell, count in each(near, 64):
        if count == 3 or (count == 2 and cell in alive):
            out.after[cell] = 1


@control
def main(alive: Map[Int, Int], after: Out[Map[Int, Int]]) -> None:
    near = Sum[Int]()
    spread(alive, near)
    live(alive, near, out.after)
