"""genlist, by the model: one text on standard input, or many with a line `====` between.

With --wide the limits of genlist's text (140 entries, 4,096 bytes) are not kept. With --words an
accepted answer is five lines in place of the listing: the words of markers, constants, names,
errors and lines.
"""
import pathlib
import re
import sys

sys.path.insert(0, str(pathlib.Path(__file__).resolve().parent.parent))

from model.listing import answer_text, listing


def output_words(answer):
    return "".join(" ".join(map(str, words)) + "\n" for words in answer.words())


def main():
    limited = "--wide" not in sys.argv[1:]
    show = output_words if "--words" in sys.argv[1:] else listing
    texts = re.split(rb"(?m)^====\n", sys.stdin.buffer.read())
    sys.stdout.write("====\n".join(answer_text(text, limited, show) for text in texts))


if __name__ == "__main__":
    main()
