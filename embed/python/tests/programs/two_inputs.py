from yuglemit.build import Array, Int, Out, check, control, insert, out


@control
def main(container: Array[Int], other: Int, both: Out[Array[Int]]) -> None:
    out.both[other] = len(container)
    if check(insert(out.both, len(container), other)):
        pass
