from yuglemit.build import Int, Out, control, out


@control
def main(seven: Out[Int]) -> None:
    out.seven = 7
