"""Arithmetic of scalars."""
from .matrices import truth
from .scalars import Residues


def answer(words, over):
    """Returns the answer of a call on scalars, or `None`. After the call, `mod M` means the residues modulo M."""
    if words[-2:-1] == ["mod"]:
        return computed(words[:-2], Residues(words[-1]))
    return computed(words, over.scalars)


def computed(words, scalars):
    """Returns the answer of a call on scalars, or `None`."""
    of, reduced = scalars.of, scalars.reduced
    match words:
        case ["zero"]:
            return str(reduced(0))
        case ["one"]:
            return str(reduced(1))
        case [int(a)]:
            return str(of(a))
        case ["-", int(a)]:
            return str(reduced(-of(a)))
        case [1, "/", int(a)]:
            inverse = scalars.inverse(of(a))
            return "none" if inverse is None else str(inverse)
        case [int(a), "+", int(b)]:
            return str(reduced(of(a) + of(b)))
        case [int(a), "*", int(b)]:
            return str(reduced(of(a) * of(b)))
        case [int(a), "==", int(b)]:
            return truth(of(a) == of(b))
    return None
