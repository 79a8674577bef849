from yuglemit.build import Int, Map, Out, Sum, control, each, leaf, out


@leaf
def count(numbers: Map[Int, Int], width: Int, bins: Out[Sum[Int]]) -> None:
    for _, number in each(numbers, 1000):
        out.bins[number // width] += 1


@control
def main(numbers: Map[Int, Int], width: Int, bins: Out[Sum[Int]]) -> None:
    count(numbers, width, out.bins)
