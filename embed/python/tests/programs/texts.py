from yuglemit.build import Array, Int, Out, Text, check, control, each, leaf, out


@leaf
def take_one(word: Text, joined: Text, total: Int, others: Int) -> tuple[Text, Int, Int]:
    if check(more := total + int(word)):
        total = more
    elif check(one_more := others + 1):
        others = one_more
    if joined != "":
        if check(comma := joined + ","):
            joined = comma
    if check(longer := joined + word):
        joined = longer
    return joined, total, others


@control
def main(words: Array[Text], joined: Out[Text], total: Out[Int], others: Out[Int]) -> None:
    all_joined, so_far, left = "", 0, 0
    for _, word in each(words, 100):
        all_joined, so_far, left = take_one(word, all_joined, so_far, left)
    out.joined = all_joined
    out.total = so_far
    out.others = left
