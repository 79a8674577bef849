from yuglemit.build import Int, Map, Out, Sum, check, control, each, insert, out


@control
def deepen(sources: Map[Int, Int], targets: Map[Int, Int], here: Map[Int, Int], levels: Out[Sum[Int]]) -> None:
    if len(here) == 0:
        return
    below = Map[Int, Int]()
    for edge, target in each(targets, 1000):
        if sources[edge] in here:
            if check(insert(below, target, 1)):
                out.levels[target] += 1
    deepen(sources, targets, below, out.levels)


@control
def main(nodes: Map[Int, Int], sources: Map[Int, Int], targets: Map[Int, Int], levels: Out[Sum[Int]]) -> None:
    deepen(sources, targets, nodes, out.levels)
