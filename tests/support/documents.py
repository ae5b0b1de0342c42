"""What scripts read in documents: links, and the commands of console blocks."""
import re

LINK = re.compile(r"\]\(([^)\s]+)\)")
BLOCK = re.compile(r"^```console\n(.*?)^```$", re.M | re.S)
COMMAND = re.compile(r"((?:.*\\\n)*.*)\n?([\s\S]*)")


def commands(text):
    """Yields each command of a document, and the output that the document shows."""
    for block in BLOCK.findall(text):
        for part in re.split(r"^\$ ", block, flags=re.M)[1:]:
            command, wanted = COMMAND.fullmatch(part).groups()
            yield command, wanted.rstrip("\n")
