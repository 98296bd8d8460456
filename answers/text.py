"""Small trees from text: lists, dots, decimal bytes, 0x atoms, `$`, `:` and the operators' names. And which forms are not the shortest."""
import re

# The least first byte of each kind of prefix, of none to four bytes more, and of those that are not carried.
KINDS = [0x80, 0xc0, 0xe0, 0xf0, 0xf8, 0xfc]
NAMES = {name: bytes([code]) for code, name in enumerate("q a i c f r l x =".split(), 1)}


def atom(bytes_):
    if len(bytes_) == 0:
        return b"\x80"
    if len(bytes_) == 1 and bytes_[0] < 0x80:
        return bytes_
    if len(bytes_) < 0x40:
        return bytes([0x80 | len(bytes_)]) + bytes_
    return bytes([0xc0 | len(bytes_) >> 8, len(bytes_) & 0xff]) + bytes_


def word(text):
    if text in NAMES:
        return NAMES[text]
    if text in "$:":
        return text.encode()
    if text.startswith("0x"):
        digits, _, times = text[2:].partition("*")
        return bytes.fromhex(digits) * int(times or 1)
    return bytes([int(text)]) if int(text) else b""


def tree(words):
    first = words.pop(0)
    return rest(words) if first == "(" else atom(word(first))


def rest(words):
    if words[0] == ")":
        words.pop(0)
        return b"\x80"
    if words[0] == ".":
        words.pop(0)
        end = tree(words)
        words.pop(0)
        return end
    left = tree(words)
    return b"\xff" + left + rest(words)


def form(text):
    """The serialised form, in hex."""
    if text.split()[0] == "bytes":
        return "".join(text.split()[1:])
    tower = re.match(r"(\S)\^(\d+) (.*)", text)
    if tower:
        name, times, inner = tower.groups()
        inner = tree(words_of(inner))
        for _ in range(int(times)):
            inner = b"\xff" + atom(NAMES[name]) + b"\xff" + inner + b"\x80"
        return inner.hex()
    return tree(words_of(text)).hex()


def spare(form):
    """Whether a reader of the form, in hex, comes to an atom that has a shorter spelling, before any fault."""
    form, at, wanted = bytes.fromhex(form), 0, 1
    while wanted > 0 and at < len(form):
        first, at = form[at], at + 1
        wanted += 1 if first == 0xff else -1
        if first < 0x80 or first == 0xff:
            continue
        # How many bytes of the length follow; of `fc`, `fd` and `fe` none are carried.
        more = sum(first >= kind for kind in KINDS) - 1
        stated = form[at:at + more]
        if more == len(KINDS) - 1 or len(stated) < more:
            return False
        length, at = int.from_bytes(bytes([first - KINDS[more]]) + stated, "big"), at + more
        if more > 0 and length < 1 << 7 * more - 1:
            return True
        body, at = form[at:at + length], at + length
        if length > 64 or len(body) < length:
            return False
        if length == 1 and body[0] < 0x80:
            return True
    return False


def words_of(text):
    return re.findall(r"[()]|[^\s()]+", text)
