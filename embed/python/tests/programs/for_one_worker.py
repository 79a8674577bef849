from yuglemit.build import Int, Out, control, leaf, out


@leaf
def store() -> Int:
    return 1


@control
def main(result: Out[Int]) -> None:
    out.result = store(worker=1)
