#!/usr/bin/env python3
"""Brings this repository's own definitions and lemmas to snake case, and its facts to upper camel case.

Run once, at the top, right after the toolchain's own port script: tools/respell.py. Only whole names change, in the .rt and
.antt files of crates/; no function and no string has one of these."""
import pathlib
import re

# words that say a fact of values: spelled as a type
FACTS = {
    "hopPuts": "HopPuts", "hopPolls": "HopPolls", "moved": "Moved", "rainPuts": "RainPuts", "rainPolls": "RainPolls",
}
# facts of one file
FACTS_OF = {
    "crates/showpile/proofs/Piles.antt": {
        "put_of": "PutOf", "putOf": "PutOf", "pollOf": "PollOf", "hopPoll": "HopPoll", "putBelow": "PutBelow",
        "pollBelow": "PollBelow", "pilePut": "PilePut", "pilePoll": "PilePoll",
    },
}
# names that would fall together with another of their file
APART = {
    "when_true": "when_true-held", "whenTrue": "when_true", "near-left": "poll_leaves-arrival", "nearLeft": "near_left",
}
# lemmas: an underscore before a plain word, a dash between two names of functions or facts
LEMMAS = {
    "accepted-behind": "accepted_behind", "back-after": "back_after", "bit-back": "bit_back", "book-back": "book_back",
    "book-ends": "book_ends", "book-full": "book_full", "book-more": "book_more", "book-some": "book_some",
    "digit-ascii": "digit_ascii", "far-of": "far_of", "filled-behind": "filled_behind", "filled-fits": "filled_fits",
    "first-later": "first_later", "hop-moved": "hop_moved", "hop-poll": "hop_poll", "hop-put": "hop_put",
    "none-later": "none_later", "none-next": "none_next", "octet-more": "octet_more", "piece-made": "piece_made",
    "pile-poll": "pile_poll", "pile-put": "pile_put", "poll-below": "poll_below", "poll-first": "poll_first",
    "put-behind": "put_behind", "put-below": "put_below", "put-parts": "put_parts", "reads-right": "reads_right",
    "refused-behind": "refused_behind", "row-conserved": "Row-Conserved", "row-push": "Row-push",
    "row-runs": "Row-run", "same-front": "same_front", "unit-on": "unit_on", "unit-small": "unit_small",
    "value-back": "value_back", "is-high": "is_high", "is-low": "is_low", "b-small": "b_small", "c-small": "c_small",
}
NAME = re.compile(r"(?<![\w'\-])[A-Za-z][\w']*(?:-[A-Za-z][\w']*)*(?![\w'\-])")
CAMEL = re.compile(r"[a-z]+(?:[A-Z][a-z]*)+")


def snake(name):
    return re.sub(r"[A-Z]", lambda m: "_" + m.group().lower(), name)


def respell(name, here):
    for table in (here, FACTS, APART, LEMMAS):
        if name in table:
            return table[name]
    return snake(name) if CAMEL.fullmatch(name) else name


def main():
    for file in sorted(pathlib.Path("crates").rglob("*")):
        if file.suffix not in (".rt", ".antt") or "out" in file.parts:
            continue
        here = FACTS_OF.get(str(file), {})
        lines = file.read_text().split("\n")
        remark = "//" if file.suffix == ".rt" else "--"
        turned = [
            line if line.lstrip().startswith(remark) else NAME.sub(lambda m: respell(m.group(), here), line)
            for line in lines
        ]
        file.write_text("\n".join(turned))


main()
