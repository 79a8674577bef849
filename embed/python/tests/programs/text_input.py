from yuglemit.build import Out, Text, check, control, out


@control
def main(word: Text, twice: Out[Text]) -> None:
    if check(both := word + word):
        out.twice = both
    else:
        out.twice = word
