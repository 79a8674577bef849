from yuglemit.build import Int, Out, check, control, out


@control
def main(left: Int, right: Int, difference: Out[Int]) -> None:
    if check(less := right - left):
        out.difference = less
    else:
        out.difference = right
