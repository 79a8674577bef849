from yuglemit.build import Int, Out, check, control, leaf, out


@leaf
def add_one(number: Int) -> Int:
    if check(more := number + 1):
        return more
    return number


@control
def main(start: Int, to: Out[Int]) -> None:
    out.to = add_one(add_one(add_one(start)))
