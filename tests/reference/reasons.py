"""Why something is refused or can't be read: words, and the values behind them."""


class Reason(Exception):
    """Words and values: a number is printed in decimal, and a text is hexadecimal."""

    def __init__(self, words: str, *values: int | str) -> None:
        super().__init__(" ".join([words, *map(str, values)]))
        self.words, self.values = words, values
