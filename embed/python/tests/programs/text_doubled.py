from yuglemit.build import Int, Out, byte_length, check, control, out


@control
def main(length: Out[Int]) -> None:
    word = "x"
    for _ in range(13):
        if check(longer := word + word):
            word = longer
    out.length = byte_length(word)
