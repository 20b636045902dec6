"""Lists of requests over a database, by a fixed generator from its index.

    lists.py INDEX NAME FOLDER      writes FOLDER/NAME.KIND for each kind, a request in each line

The kinds: `hits` (DEFINE of headwords), `misses` (DEFINE of headwords with `qx` in the midst of the last word, which are none),
`exacts` (MATCH of headwords), `prefixes` and `suffixes` of 4 letters, `substrings` of 5, `words` (one word of a headword), each of a headword that the
generator takes, and `mix`: of 20 requests 10 hits, 4 misses, 3 prefixes, 1 suffix, 1 substring and 1 word. What is asked for
has only letters, digits and single spaces, so that the profiles of dictcat and of dictd differ least.
"""
import pathlib
import random
import sys

COUNT = 2000
KINDS = ("hits", "misses", "exacts", "prefixes", "suffixes", "substrings", "words", "mix")


def headwords(index):
    """The headwords of an index, without reserved ones and those that have other than letters, digits and single spaces."""
    found = []
    for line in pathlib.Path(index).read_bytes().split(b"\n")[:-1]:
        head = line.split(b"\t")[0].decode()
        if not head.startswith(("00", "000")) and head == " ".join(head.split()) and all(it.isalnum() or it == " " for it in head):
            found.append(head)
    return found


def of_length(text, length):
    return len(text) == length and text == text.strip() and "  " not in text


def parts(heads, chosen, kind):
    """A text to ask for, of a headword that is chosen."""
    while True:
        head = chosen.choice(heads)
        if kind == "prefixes" and of_length(part := head[:4], 4):
            return part
        if kind == "suffixes" and of_length(part := head[-4:], 4):
            return part
        if kind == "substrings" and len(head) > 5:
            at = chosen.randrange(len(head) - 4)
            if of_length(part := head[at:at + 5], 5):
                return part
        if kind == "words":
            return chosen.choice(head.split(" "))
        if kind in ("hits", "misses", "exacts"):
            return head


def request(name, heads, known, chosen, kind):
    text = parts(heads, chosen, kind)
    if kind == "hits":
        return f'DEFINE {name} "{text}"'
    if kind == "misses":
        cut = max(1, len(text) - 2)
        text = text[:cut] + "qx" + text[cut:]
        return f'DEFINE {name} "{text}"' if text.lower() not in known else request(name, heads, known, chosen, kind)
    return f'MATCH {name} {STRATEGIES[kind]} "{text}"'


STRATEGIES = {"exacts": "exact", "prefixes": "prefix", "suffixes": "suffix", "substrings": "substring", "words": "word"}
MIXED = ["hits"] * 10 + ["misses"] * 4 + ["prefixes"] * 3 + ["suffixes", "substrings", "words"]


def lists(index, name, count=COUNT, seed=2229):
    """For each kind its requests, the same for the same index."""
    heads, made = headwords(index), {}
    known = {it.lower() for it in heads}
    for kind in KINDS[:-1]:
        chosen = random.Random(f"{seed} {kind}")
        made[kind] = [request(name, heads, known, chosen, kind) for _ in range(count)]
    chosen, at = random.Random(f"{seed} mix"), dict.fromkeys(KINDS, 0)
    made["mix"] = []
    for _ in range(count // len(MIXED)):
        for kind in chosen.sample(MIXED, len(MIXED)):
            made["mix"].append(made[kind][at[kind] % count])
            at[kind] += 1
    return made


def write(index, name, folder, count=COUNT):
    """Writes the lists, and gives their paths by kind."""
    paths = {}
    for kind, requests in lists(index, name, count).items():
        paths[kind] = pathlib.Path(folder) / f"{name}.{kind}"
        paths[kind].write_text("".join(f"{it}\n" for it in requests))
    return paths


if __name__ == "__main__":
    write(*sys.argv[1:4])
