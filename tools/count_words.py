#!/usr/bin/env python3
"""Tries that README.md and docs/*.md together have at most 40,000 words.

    python3 tools/count_words.py          says how many each page has, if they are too many; the status is 1 then
    python3 tools/count_words.py --all    says it anyway

Counted is what stands between blanks and has a letter or a digit, outside the blocks between two lines ```. So bars of
tables and marks of lists are no words. How many there are with the blocks is said beside it.
"""

import re
import sys

sys.dont_write_bytecode = True

from named import TOP, pages

MOST = 40_000


def words(text):
    return sum(re.search(r"[^\W_]", it) is not None for it in text.split())


def words_to_read(text):
    return words(re.sub(r"(?ms)^```.*?^```$", "", text))


def main(given):
    if given not in ([], ["--all"]):
        sys.exit(__doc__)
    texts = {str(it.relative_to(TOP)): it.read_text(encoding="utf-8") for it in pages()}
    counts = {page: words_to_read(text) for page, text in texts.items()}
    total, whole = sum(counts.values()), sum(words(text) for text in texts.values())
    if total > MOST or given:
        for page, count in counts.items():
            print(f"tools/count_words.py: {page}: {count:,}")
        print(f"tools/count_words.py: {total:,} words; at most {MOST:,} are to be read; {whole:,} with the blocks")
    return 1 if total > MOST else 0


if __name__ == "__main__":
    sys.exit(main(sys.argv[1:]))
