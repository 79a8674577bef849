from yuglemit.build import Int, Out, check, control, out


@control
def main(result: Out[Int]) -> None:
    zero = 0
    if check(7 // zero):
        out.result = 9
    else:
        out.result = 7
