from yuglemit.build import Array, Int, Out, check, control, out


@control
def main(container: Array[Int], result: Out[Int]) -> None:
    if check(member := container[3]):
        out.result = member
    else:
        out.result = 0
