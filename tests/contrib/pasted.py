"""What README.md pastes, and whether what was printed is what it has to be."""
import re

from common import TOP, same

PAGE = (TOP / "README.md").read_text()
BLOCKS = re.findall(r"^```sh\n(.*?)^```$", PAGE, re.S | re.M)
# The lines that are root's, and each block without them.
OF_ROOT = [line for block in BLOCKS for line in block.splitlines() if line.startswith("apt-get ")]
OF_USER = ["".join(f"{line}\n" for line in block.splitlines() if line not in OF_ROOT) for block in BLOCKS]
# What has to be printed, in this order: what the page shows, and what a reader is told of the replacing and of the taking back.
DUE = [line for block in re.findall(r"^```text\n(.*?)^```$", PAGE, re.S | re.M) for line in block.splitlines()]
DUE += ["  opal", "wn: 'opal' replaced", '{"edition":2,"name":"wn","number":2,"verb":"install"}', "    A stone of many colours.",
        '{"edition":1,"name":"wn","number":3,"verb":"rollback"}']


def looked_at(printed):
    """The lines that are due stand in it in their order, and behind the rollback the entry as it was."""
    at = 0
    for line in DUE:
        same(line in printed[at:], True, f"{line}\n  in what is printed behind\n{printed[:at][-500:]}\n  which is\n{printed[at:][:2000]}")
        at = printed.index(line, at) + len(line)
    same("A stone of many colours." in printed[at:], False, "that the change stands behind the rollback")
    same("a translucent mineral" in printed[at:], True, "that the entry is as it was behind the rollback")
