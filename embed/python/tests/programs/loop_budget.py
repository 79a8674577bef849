from yuglemit.build import control


@control
def main() -> None:
    number = 0
    for _ in range(10):
        number = number + 0
