from yuglemit.build import Int, Map, Out, Sum, control, leaf, out


@leaf
def add(numbers: Map[Int, Int], start: Int, total: Out[Sum[Int]]) -> None:
    part = 0
    for place in range(8):
        part = part + numbers[start + place]
    out.total[0] += part


@control
def main(numbers: Map[Int, Int], total: Out[Sum[Int]]) -> None:
    for part in range(8):
        add(numbers, 8 * part, out.total)
