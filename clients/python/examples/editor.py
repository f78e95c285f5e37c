"""An editor: what is typed goes on a stack; steps are taken back and made once more, and a step of long ago is corrected."""

from typing import List

from retro import Refused, Retro


def shown(letters: List[int]) -> str:
    return "".join(map(chr, reversed(letters)))


with Retro() as retro:
    text = retro.new("text", "stack")
    for second, letter in enumerate("rettro"):
        text.push(ord(letter), at=second)
    text.delete(3)  # one t too many, three keystrokes ago
    print(shown(text.all()), "and at second 3 it was", shown(text.all(at=3)))
    text.undo()
    print("undone:", shown(text.all()))
    text.redo()
    text.push(ord("!"), at=9)
    try:
        text.redo()
    except Refused as refused:
        print(shown(text.all()), "and a redo:", refused.cause)
