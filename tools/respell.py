#!/usr/bin/env python3
"""Respells the names of definitions and lemmas of this repository: snake case, and ' for a prime.

usage: python3 tools/respell.py      at the top of the repository, once, after the toolchain's own script

The table below has each name and its new one. In .antt and .rt files every token of the code is turned (no name of the
table is a name of Rattle's code), and in comments and docs the names with a capital, which are no words. Strings stay as
they are. It stops, and writes nothing, where a new name already stands in a file that has the old one.
"""

import os
import re
import sys

TABLE = dict(
    line.split()
    for line in """
    andThen and_then
    entryOf entry_of
    groupsOf groups_of
    lineOf line_of
    numberOf number_of
    placeOf place_of
    quotientOf quotient_of
    rowOf row_of
    wordOf word_of
    address-exact address_exact
    address-lt address_lt
    address-only address_only
    admittedAtHome admitted_at_home
    after-colon after_colon
    after-written after_written
    all-admitted all_admitted
    all-buckets all_buckets
    andThen-some and_then_some
    answerText answer_text
    areDigits are_digits
    areDigits-false are_digits_false
    areDigits-true are_digits_true
    around-lt around_lt
    before-written before_written
    begins-append begins_append
    begins-is begins_is
    begins-true begins_true
    begins-zeros begins_zeros
    below-cond below_cond
    below-of-shr below_of_shr
    best-all best_all
    best-kept best_kept
    best-new best_new
    bit-cases bit_cases
    bits-times bits_times
    blankRecord blank_record
    bucketLines bucket_lines
    byBits by_bits
    byBits-step by_bits_step
    byBitsIn by_bits_in
    coefficient-le coefficient_le
    coefficient-sum coefficient_sum
    colons-more colons_more
    colons-none colons_none
    colons-one colons_one
    colons-written colons_written
    cond-none cond_none
    cond-some cond_some
    confusedText confused_text
    confusedWith confused_with
    constant-out constant_out
    content-fits content_fits
    cut-first cut_first
    cut-joins cut_joins
    cut-none cut_none
    cut-run cut_run
    cut-without cut_without
    decimal-back decimal_back
    decimal-exact decimal_exact
    decimal-only decimal_only
    default-longest default_longest
    default-too-long default_too_long
    degree-by degree_by
    degree-ge degree_ge
    degree-le degree_le
    degree-lt degree_lt
    degree-times degree_times
    digest-is digest_is
    digest-lt digest_lt
    digit-back digit_back
    digitChar-lt digit_char_lt
    digits-back digits_back
    divides-out divides_out
    dotted-back dotted_back
    dotted-colonless dotted_colonless
    dotted-exact dotted_exact
    dotted-groups dotted_groups
    dotted-long dotted_long
    dotted-only dotted_only
    dotted-read dotted_read
    dotted-without dotted_without
    double-half double_half
    element-set element_set
    element-written element_written
    encode-digit encode_digit
    entry-is entry_is
    exactly-related exactly_related
    faultOf fault_of
    faultText fault_text
    first-colonless first_colonless
    first-unadmitted first_unadmitted
    first-written first_written
    fits-shift fits_shift
    fits-wide fits_wide
    g1100D g1100d
    g11D g11d
    generator-range generator_range
    group-colonless group_colonless
    group-lt group_lt
    group-only group_only
    group-read group_read
    groups-first groups_first
    groups-number groups_number
    groups-only groups_only
    groups-passed groups_passed
    groups-read groups_read
    groups-small groups_small
    groups-step groups_step
    groups-written groups_written
    groupsText groups_text
    half-changed half_changed
    half-small half_small
    half-takes half_takes
    has-degree has_degree
    headingOf heading_of
    hex-long hex_long
    hex-more hex_more
    hex-one hex_one
    hex-positive hex_positive
    hex-short hex_short
    hex-step hex_step
    hex-written hex_written
    home-ge home_ge
    home-is home_is
    home-le home_le
    homeTread home_tread
    inside-half inside_half
    interleavedShape interleaved_shape
    is-generator is_generator
    is-prefix is_prefix
    is-product is_product
    isEnded is_ended
    isEven is_even
    isMapped is_mapped
    joined-around joined_around
    keepsApart keeps_apart
    laboratory-digest laboratory_digest
    last-only last_only
    last-read last_read
    laws-of laws_of
    le-refl-2 le_refl_2
    lead-end lead_end
    lead-le lead_le
    lead-stop lead_stop
    leadingZero leading_zero
    leadingZeros leading_zeros
    leb-suc leb_suc
    listingOf listing_of
    longest-ge longest_ge
    longest-is longest_is
    longest-kept longest_kept
    longest-le longest_le
    longest-new longest_new
    longestRun longest_run
    low-octet low_octet
    lowest-not-lt lowest_not_lt
    mapped-some mapped_some
    mapped-written mapped_written
    mod-suc mod_suc
    multiple-below multiple_below
    multiple-of multiple_of
    multiple-sum multiple_sum
    named-after-all named_after_all
    named-utf8 named_utf8
    next-lt next_lt
    no-colon-begins no_colon_begins
    no-group no_group
    no-leading-zero no_leading_zero
    no-text-no-name no_text_no_name
    not-refused not_refused
    number-around number_around
    numberAfter-is number_after_is
    numberAfter-zeros number_after_zeros
    occupiedAt occupied_at
    occupiedText occupied_text
    octet-back octet_back
    octet-dot-back octet_dot_back
    octet-dot-only octet_dot_only
    octets-join octets_join
    octets-sum octets_sum
    one-more-bucket one_more_bucket
    one-more-slot one_more_slot
    onto-append onto_append
    onto-more onto_more
    onto-nil onto_nil
    passed-colon passed_colon
    passed-colonless passed_colonless
    placeLine place_line
    placeText place_text
    plus-one-degree plus_one_degree
    poly-is poly_is
    poly-small poly_small
    position-eq position_eq
    position-lt position_lt
    power-lt power_lt
    power-positive power_positive
    prefixText prefix_text
    q-half q_half
    q-small q_small
    quotient-lt quotient_lt
    quotient-small quotient_small
    quotient-step quotient_step
    quotient-zero quotient_zero
    r-bound r_bound
    r-half r_half
    readAddress read_address
    readAfter read_after
    readDecimal read_decimal
    readDigits read_digits
    readGroup read_group
    readGroups read_groups
    readLast read_last
    readNumber read_number
    readNumberAndSpace read_number_and_space
    readOctet read_octet
    readOctetAndDot read_octet_and_dot
    readPlacing read_placing
    readPrefix read_prefix
    readShortened read_shortened
    readSide read_side
    readSides read_sides
    readWhole read_whole
    reads-back reads_back
    recordContent record_content
    recordEncoding record_encoding
    recordOf record_of
    refusalText refusal_text
    refused-large refused_large
    refused-no-digit refused_no_digit
    refused-part refused_part
    remainder-small remainder_small
    remainder-step remainder_step
    remainder-zero remainder_zero
    remainderOf remainder_of
    round-twice round_twice
    rounded-sum rounded_sum
    row-of-name row_of_name
    same-at-home same_at_home
    same-bucket same_bucket
    same-colony same_colony
    same-degree same_degree
    same-lowest same_lowest
    same-q same_q
    second-written second_written
    shapeOver shape_over
    shortened-read shortened_read
    shr-half shr_half
    shr-none shr_none
    shr-some shr_some
    shr-suc shr_suc
    side-only side_only
    side-passed side_passed
    side-read side_read
    side-written side_written
    sidesText sides_text
    sliceGrid slice_grid
    sliceShape slice_shape
    slotLines slot_lines
    small-left small_left
    small-right small_right
    small-without-20 small_without_20
    step-full step_full
    step-group step_group
    step-no-group step_no_group
    step-on step_on
    sum-coefficient sum_coefficient
    sum-colony sum_colony
    sum-digest sum_digest
    sum-divides sum_divides
    taken-lt taken_lt
    ten-digest ten_digest
    text-short text_short
    text-written text_written
    three-treads three_treads
    times-by-one times_by_one
    times-digit times_digit
    times-double times_double
    times-halved times_halved
    times-one times_one
    times-shl times_shl
    times-step times_step
    times-sum times_sum
    times-sum-right times_sum_right
    told-apart told_apart
    total-more total_more
    total-two total_two
    treadsOf treads_of
    two-treads two_treads
    unseen-colony unseen_colony
    unseen-multiple unseen_multiple
    unseen-pair unseen_pair
    unseen-small unseen_small
    unseen-some unseen_some
    unseen-whole unseen_whole
    upper-multiple upper_multiple
    v4-small v4_small
    value-step value_step
    value-take-le value_take_le
    valueAfter-append value_after_append
    valueAfter-ge value_after_ge
    whenTrue-false when_true_false
    whenTrue-some when_true_some
    whenTrue-true when_true_true
    whole-read whole_read
    whole-written whole_written
    wide-longest wide_longest
    wide-too-long wide_too_long
    without-append without_append
    without-colon without_colon
    without-digits without_digits
    withoutEnd without_end
    wordContent word_content
    wordEncoding word_encoding
    wordOfEntry word_of_entry
    wordShape word_shape
    worked-figures worked_figures
    writing-read writing_read
    xor-cancel xor_cancel
    xor-cross xor_cross
    xor-shl xor_shl
    xor-swap xor_swap
    xor-zero xor_zero
""".strip().splitlines()
)

WORD = re.compile(r"[\w'\u2032\-]+")
TEXT = re.compile(r'b?"(?:[^"\\]|\\.)*"')
CAPITAL = {old: new for old, new in TABLE.items() if re.search("[A-Z]", old) and "-" not in old}


def turned(text, table):
    def one(m):
        word = table.get(m.group(0), m.group(0))
        return word.replace("\u2032", "'") if table is TABLE else word

    return WORD.sub(one, text)


def code_line(line, mark):
    """A line with its code turned; its strings stay, and of its comment only names with a capital are turned."""
    out, at = [], 0
    for m in re.finditer(TEXT.pattern + "|" + re.escape(mark) + ".*", line):
        out.append(turned(line[at : m.start()], TABLE))
        out.append(turned(m.group(0), CAPITAL) if m.group(0).startswith(mark) else m.group(0))
        at = m.end()
    return "".join(out) + turned(line[at:], TABLE)


def file_text(path, text):
    if path.endswith(".md"):
        return re.sub(r"`[^`\n]*`", lambda m: turned(m.group(0), CAPITAL), text)
    mark = "--" if path.endswith(".antt") else "//"
    return "\n".join(code_line(line, mark) for line in text.split("\n"))


def said(path, text):
    """The names that the file's definitions, clauses and proofs say. A part of a path is none, and a function of src/
    may have the name of the definition that says what it answers."""
    text = TEXT.sub("", text)
    if path.endswith(".md"):
        return set()
    if path.endswith(".rt"):
        text = "\n".join(l for l in text.split("\n") if re.match(r"\s*(ghost|requires|ensures)\b", l))
    text = re.sub(r"Rattle(\.[\w'\u2032\-]+)+", "", text)
    return set(WORD.findall(text))


def paths():
    for top in ("crates", "docs"):
        for folder, dirs, files in os.walk(top):
            dirs[:] = sorted(d for d in dirs if d != "out")
            yield from (os.path.join(folder, f) for f in sorted(files) if f.endswith((".antt", ".rt", ".md")))
    yield "README.md"


def main():
    new, together = {}, []
    for path in paths():
        with open(path, encoding="utf-8") as f:
            text = f.read()
        words = said(path, text)
        together += [f"{path}: {old} and {TABLE[old]}" for old in sorted(words) if old in TABLE and TABLE[old] in words]
        result = file_text(path, text)
        if result != text:
            new[path] = result
    if together:
        print("names that fall together:\n" + "\n".join(together))
        return 1
    for path, text in new.items():
        with open(path, "w", encoding="utf-8") as f:
            f.write(text)
    print(f"{len(new)} files respelled")
    return 0


if __name__ == "__main__":
    sys.exit(main())
