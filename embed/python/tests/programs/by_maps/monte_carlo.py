from yuglemit.build import Int, Out, Sum, control, leaf, out


@leaf
def throw(seed: Int, inside: Out[Sum[Int]]) -> None:
    state = seed
    found = 0
    for _ in range(1000):
        state = (state * 1103515245 + 12345) % 2147483648
        x = state // 65536
        state = (state * 1103515245 + 12345) % 2147483648
        y = state // 65536
        if x * x + y * y < 1073741824:
            found = found + 1
    out.inside[0] += found


@control
def main(seed: Int, inside: Out[Sum[Int]]) -> None:
    for part in range(20):
        throw(seed + part, out.inside)
