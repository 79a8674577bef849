from yuglemit.build import Array, Int, Out, Table, Text, check, control, each, insert, leaf, out

MOST = 8


@leaf
def count(word: Text, tally: Out[Table[Int]]) -> None:
    for number in range(1, MOST + 1):
        if check(insert(out.tally, f"{number} {word}", number)):
            break


@leaf
def tell(word: Text, tally: Table[Int], counts: Out[Table[Int]]) -> None:
    known = 0
    for number in range(1, MOST + 1):
        if f"{number} {word}" in tally:
            known = number
    if check(insert(out.counts, word, known)):
        pass


@control
def main(words: Array[Text], counts: Out[Table[Int]]) -> None:
    if len(words) > MOST:
        out.counts["too many words"] = len(words)
        return
    tally = Table[Int]()
    for _, word in each(words, MOST):
        count(word, tally)
        tell(word, tally, out.counts)
