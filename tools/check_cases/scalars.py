"""The scalars that rows are run over."""
from .words import Refused, Unreadable

TOO_SMALL = ("TypeMismatch", "Please consider using a larger integer type.")


class Integers:
    """Signed integers of this many bits. They have no arithmetic."""

    typename = "integer"
    one = 1

    def __init__(self, name, bits):
        self.name, self.bits, self.bytes = name, bits, bits // 8

    def has(self, number):
        """Returns whether a number is one of them."""
        return -(1 << self.bits - 1) <= number < 1 << self.bits - 1

    def of(self, number):
        """Returns the scalar that a row writes with a number."""
        if not self.has(number):
            raise Unreadable(f"{self.name} has no {number}")
        return number

    def from_integer(self, number):
        """Returns the scalar of a number in a text."""
        if not self.has(number):
            raise Refused(*TOO_SMALL)
        return number

    def from_pattern(self):
        """Returns the scalar of an entry of a text of field `pattern`."""
        raise Refused("TypeMismatch", "Int type can't be parsed from ()")

    def negative(self, number):
        """Returns the negative of a number in a text."""
        return self.from_integer(-number)

    def conjugate(self, number):
        """Returns the conjugate of a number in a text."""
        raise Refused("TypeMismatch", "Int type has no conjugate")

    def text(self, number):
        """Returns the text of a number."""
        return str(number)

    def debug(self, number):
        """Returns the text of a number for debugging."""
        return str(number)


class Ring(Integers):
    """A ring of integers modulo a number. `reduced` returns the representative of a residue."""

    modulus = 1

    def reduced(self, number):
        """Returns the scalar that equals a number."""
        return number % self.modulus

    def inverse(self, number):
        """Returns the inverse, or `None` if there is none."""
        try:
            return self.reduced(pow(number, -1, self.modulus))
        except ValueError:
            return None

    def negative(self, number):
        return self.reduced(-number)


class Wrapping(Ring):
    """The integers modulo 2^bits, each written as a signed integer."""

    def __init__(self, bits):
        super().__init__(f"W{bits}", bits)
        self.modulus = 1 << bits

    def reduced(self, number):
        half = self.modulus // 2
        return (number + half) % self.modulus - half

    def debug(self, number):
        return f"W{self.bits} {{ number: {number} }}"


class Residues(Ring):
    """The integers modulo m, written from 0 on. A modulus of 0 is read as 1."""

    def __init__(self, modulus):
        super().__init__(f"Mod{modulus}", 64)
        self.modulus = max(modulus, 1)
        self.one = 1 % self.modulus

    def has(self, number):
        return 0 <= number < 1 << 64

    def of(self, number):
        return self.reduced(super().of(number))

    def debug(self, number):
        return f"Mod {{ number: {number} }}"


class Places:
    """The type of entries without a value, which rows write as `x`."""

    name, typename, one, bytes = "Places", "pattern", "x", 0

    def of(self, number):
        raise Unreadable(f"a place has no value {number}")

    def from_integer(self, number):
        raise Refused("TypeMismatch", "Pattern type can't be parsed from i128")

    def from_pattern(self):
        return "x"

    def negative(self, place):
        raise Refused("TypeMismatch", "Pattern type has no negative")

    def conjugate(self, place):
        raise Refused("TypeMismatch", "Pattern type has no conjugate")

    def text(self, place):
        return ""


SCALARS = [Integers(f"i{bits}", bits) for bits in (8, 16, 32, 64, 128)]
SCALARS += [Wrapping(bits) for bits in (32, 64, 128)] + [Residues(modulus) for modulus in (7, 6, 1, 0)] + [Places()]
BY_NAME = {scalar.name: scalar for scalar in SCALARS}


def scalar_of(word, scalars):
    """Returns the scalar that a word writes: a number, or `x` for one."""
    if word == "x":
        return scalars.one
    try:
        return scalars.of(int(word))
    except ValueError:
        raise Unreadable(f"{word} is not a number") from None
