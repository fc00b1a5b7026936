#!/usr/bin/env python3
"""Spells the repository's own definitions and lemmas as today's Rattle does: words with '_', types in camel case.

    tools/respell.py        in a checkout whose crates were turned by the toolchain's own scripts; run once

Names in src/ of functions, types and fields, strings, inputs and outputs keep their spelling: only whole names with a
dash in them change, and of those only the ones listed here, which crates/*/specs and crates/*/proofs define.
"""
import os
import re

# names that would have fallen together with a field or a ghost field that a clause reads beside them
OTHERS = {
    "series-type": "series_type_of",
    "single-lines": "single_lines_lem",
    "table-type": "table_type_of",
}

NAMES = """
By-supplier Done-file Each-mark Follows-so Own-part Repeats-next Result-of Rows-of Same-number Sorted-places
Sound-rows Stands-at True-flags Up-to across-bytes after-fields after-others all-is all-places all-rows all-series
all-taken all-unmap apart-append apart-ascending apart-numbers apart-shuffled ascending-part at-below at-index at-is
back-front before-others below-some below-when better-is better-new better-old blocked-apart blocked-own
blocked-refused book-fault book-parts both-more broken-head bus-sign by-id by-supplier by-text bytes-in changed-line
checked-more checked-sound code-set columns-short comes-first comes-later compare-ids compare-own count-after
count-cons count-some count-two covered-by day-before day-bounds day-in day-is day-of day-set decides-sound
deleted-on delivery-fault delivery-parts differs-under distinct-noted end-columns end-fault ends-fault ends-when-none
entries-after entry-parts extent-set fare-table-context fare-table-flags fare-table-in fare-table-lines
fare-table-marks fare-table-meaning fare-table-row fare-table-same fare-table-table fare-table-takes
fare-table-takes-all fare-table-told fault-is fault-when ferry-sign few-series few-stations few-stay few-tables
field-parts file-done file-entered file-fault file-indexed file-judged file-name file-order first-at first-day
first-decides first-line first-none first-of-rows first-over first-receipt fits-same flag-3 flag-3-in-new
flag-columns flag-in folded-own follows-line forth-front found-gone found-staying free-from fresh-apart fresh-book
front-has front-is front-place full-century has-counted has-front has-id has-row head-fault head-parts head-supplier
head-table higher-above id-order in-file in-k is-at-fault is-blocked is-changed is-day is-equal is-missing is-off
is-own is-untrue joins-when-none judged-by judged-is judged-line kept-alike kept-all kept-between kept-head kept-none
kept-parts kept-place kept-tests kept-when-none key-before key-flag key-flag-of layer-name leap-day least-from-lowest
least-from-next least-lowered least-same left-blank length-91 length-is length-of-part length-own length-put
length-x3 light-fault light-none light-order light-reads light-some light-when line-fault line-is line-none
line-parts live-is lower-below lower-first lower-supplier lowest-at lowest-found lowest-has lowest-located
lowest-missed lowest-none lowest-of lowest-past lowest-until map-exchanged may-enter merging-all merging-front
merging-none merging-row missing-first missing-none missing-own missing-refusal month-13 nearest-fold nearest-is
never-itself new-ascends new-own next-at next-cases next-day next-day-second-version next-from-repeats next-kept
next-version no-context no-day no-earlier no-earlier-chain no-fault no-head-fault no-leap-day no-rest no-row-fault
no-row-refused no-some none-mapped none-refused none-when-ends none-when-joins none-when-kept none-when-sound
not-before not-it not-later not-missing not-twice noted-all noted-is noted-push noted-set noted-single number-fault
numbers-differ of-type offset-fits on-calendar or-none order-of others-are own-are own-between own-kept own-order
part-is part-own part-take place-below place-there ranks-ids ranks-places ranks-text receipt-left record-at
record-number refused-at register-fault register-parts repeats-back repeats-from-next repeats-shuffled repeats-there
right-size route-is row-0 row-context row-entry row-fault row-id row-judged row-known row-order row-parts row-place
row-refusal row-there rows-fault rows-own rows-refusal rows-refused rows-say run-entered same-day same-fare-table
same-series same-station same-table-type same-type second-done series-after series-count series-count-is series-fault
series-fit series-flags series-in series-key series-length series-lines series-marks series-meaning series-of
series-read series-room series-row series-rows series-same series-start series-table series-takes series-takes-all
series-told shuffled-after shuffled-before shuffled-map shuffled-turn sign-in signs-differ some-element some-none
some-row sorted-append sorted-drop sorted-kept sorted-take sound-delivery sound-when-none sound-when-read standing-at
standing-missed standing-none stands-below state-of station-at station-count station-count-is station-in
station-length station-lines station-marks station-meaning station-of station-room station-row station-rows
station-same station-table station-takes station-takes-all stations-after stations-fit stations-read stay-fits
stay-is stays-blocked supplier-is table-0999 table-1000 table-count table-count-is table-length table-room table-row
table-rows table-start table-type-number table-types-differ tables-fit tables-read take-set take-two takes-end
takes-number takes-sign takes-text takes-type texts-differ to-blocked told-as told-columns told-number told-size
told-sound too-early-on true-flags true-size type-number typed-as types-differ unless-fault unless-new unless-none
untrue-line usual-sign value-after-push value-more version-left-out when-all when-broken when-kept when-long
when-next when-repeated when-short while-live with-own with-series zone-flag-0 zone-flag-3
"""

# a name as antt reads it: up to a blank, a bracket, a dot or another mark
TOKEN = re.compile(r"[^\s(){}\[\].,;:=\u03bb\u00ab\u00bb`\"|]+")


def spelled(name):
    if name[0].isupper():
        return "".join(word[0].upper() + word[1:] for word in name.split("-"))
    return name.replace("-", "_")


def main():
    root = os.path.dirname(os.path.dirname(os.path.abspath(__file__)))
    table = {name: spelled(name) for name in NAMES.split()} | OTHERS
    changed = 0
    for folder, dirs, files in os.walk(os.path.join(root, "crates")):
        dirs[:] = sorted(d for d in dirs if d != "out")
        for name in sorted(files):
            if not name.endswith((".rt", ".antt")):
                continue
            path = os.path.join(folder, name)
            with open(path, encoding="utf-8") as f:
                old = f.read()
            new = TOKEN.sub(lambda m: table.get(m.group(), m.group()), old)
            if new != old:
                with open(path, "w", encoding="utf-8") as f:
                    f.write(new)
                changed += 1
    print(f"respell: {changed} files")


if __name__ == "__main__":
    main()
