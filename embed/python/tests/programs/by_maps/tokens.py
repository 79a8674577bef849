from yuglemit.build import Int, Map, Out, control, each, leaf, out

BLANK = 32
ZERO = 48
NINE = 57


@leaf
def read(codes: Map[Int, Int], numbers: Out[Map[Int, Int]], signs: Out[Map[Int, Int]]) -> None:
    count = 0
    number = -1
    for _, code in each(codes, 1000):
        if code >= ZERO and code <= NINE:
            number = max(number, 0) * 10 + code - ZERO
            continue
        if number >= 0:
            out.numbers[count] = number
            count = count + 1
            number = -1
        if code != BLANK:
            out.signs[count] = code
            count = count + 1
    if number >= 0:
        out.numbers[count] = number


@control
def main(codes: Map[Int, Int], numbers: Out[Map[Int, Int]], signs: Out[Map[Int, Int]]) -> None:
    read(codes, out.numbers, out.signs)
