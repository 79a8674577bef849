from yuglemit.build import Array, Int, Out, Table, Text, byte_length, check, control, each, insert, leaf, out


@leaf
def place(word: Text, number: Int, placed: Out[Table[Text]]) -> None:
    if check(insert(out.placed, f"{byte_length(word)}:{word}:{number}", word)):
        pass
    elif check(insert(out.placed, "too long", "too long")):
        pass


@leaf
def step(before: Text, run: Int, word: Text, counts: Out[Table[Int]]) -> Int:
    if before != word and run > 0:
        if check(insert(out.counts, before, run)):
            pass
        return 1
    if check(more := run + 1):
        return more
    return run


@leaf
def finish(before: Text, run: Int, counts: Out[Table[Int]]) -> None:
    if run > 0:
        if check(insert(out.counts, before, run)):
            pass


@control
def count_runs(placed: Table[Text], counts: Out[Table[Int]]) -> None:
    before, run = "", 0
    for _, word in each(placed, 1000):
        run = step(before, run, word, out.counts)
        before = word
    finish(before, run, out.counts)


@control
def main(words: Array[Text], counts: Out[Table[Int]]) -> None:
    placed = Table[Text]()
    number = 0
    for _, word in each(words, 1000):
        place(word, number, placed)
        number = number + 1
    count_runs(placed, out.counts)
