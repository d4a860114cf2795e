#!/usr/bin/env python3
"""Brings this repository's own definitions and lemmas to the spelling of today's Rattle.

usage: python3 tools/respell.py    at the top, once, right after the toolchain's port.py

Types are in upper camel case and all else is in snake case; a dash joins two names, as in length-encoded. Three names
would have fallen together with a function or another lemma, and have another word: kind_of_number, step_maybe_sending
and on_idle_lem. Names of functions of src/, strings, inputs and outputs stay.
"""

import pathlib
import re

NAMES = dict(
    line.split()
    for line in """
high-unit high_unit
front-unit front_unit
unit-at-drop unit_at-drop
unit-at-lt unit_at_lt
next-unit next_unit
number-code number_code
number-parse number_parse
map-code map_code
map-units map_units
map-parse map_parse
in-range in_range
map-units-of map_units_of
map-decoded map_decoded
map-reads map_reads
map-of-code map_of_code
map-writes map_writes
number-reads number_reads
number-of-code number_of_code
number-writes number_writes
unit-at unit_at
reads-a reads_a
reads-b reads_b
Exact-reading ExactReading
symbol-of symbol_of
seen-pair seen_pair
if-zero if_zero
call-of call_of
at-end at_end
first-line first_line
crashed-after crashed_after
error-number error_number
in-first in_first
maybe-sending step_maybe_sending
at-stamp at_stamp
having-heard having_heard
having-doubts having_doubts
in-phase in_phase
sent-all sent_all
in-round in_round
counted-first counted_first
second-of second_of
counted-suspicion counted_suspicion
joined-second joined_second
counted-second counted_second
in-round-rule in_round_rule
round-rule round_rule
content-rule content_rule
take-rule take_rule
consult-rule consult_rule
suspicion-bytes suspicion_bytes
last-round last_round
past-round past_round
last-stamp last_stamp
past-stamp past_stamp
low-grade low_grade
below-grade below_grade
number-or-0 number_or_0
line-end line_end
station-row station_row
station-rows station_rows
line-number line_number
Exact-refusals ExactRefusals
cause-of cause_of
kind-number kind_number
kind-of kind_of_number
head-code head_code
with-bytes with_bytes
head-within head_within
all-within all_within
Opens-again OpensAgain
Reads-back ReadsBack
Writes-back WritesBack
seen-part seen_part
seen-rest seen_rest
seen-head seen_head
seen-message seen_message
after-consulting after_consulting
consult-planned consult_planned
consult-finished consult_finished
tables-fit tables_fit
of-step of_step
the-message the_message
of-message of_message
planned-for planned_for
record-formed record_formed
all-formed all_formed
all-proposed all_proposed
after-proposal after_proposal
propose-answer propose_answer
start-planned start_planned
start-finished start_finished
start-result start_result
after-start after_start
station-at station_at
record-sound record_sound
station-unit station_unit
origin-for origin_for
content-for content_for
incoming-for incoming_for
after-crash after_crash
crash-answer crash_answer
pass-answer pass_answer
posted-bytes posted_bytes
head-from head_from
message-with message_with
value-ge value_ge
digit-from digit_from
run-stops run_stops
number-decimal number_decimal
none-some none_some
digits-plain digits_plain
reads-back reads_back
first-at first_at
first-none first_none
first-left first_left
split-none split_none
separator-from separator_from
or-odd or_odd
and-odd and_odd
pow-same pow_same
pow-above pow_above
pow-under pow_under
bit-one-shl bit_one_shl
all-below all_below
clears-all clears_all
bit-above bit_above
bit-clear bit_clear
and-swap and_swap
getD-copies getD_copies
suspects-by suspects_by
cleared-here cleared_here
cleared-other cleared_other
clear-cleared clear_cleared
passing-none passing_none
adjusted-same adjusted_same
fresh-lowered fresh_lowered
adjusted-lowered adjusted_lowered
crashed-same crashed_same
performs-more performs_more
performs-leads performs_leads
telling-adds telling_adds
call-lowered call_lowered
call-crashed call_crashed
leads-lowered leads_lowered
sent-fits sent_fits
sound-true sound_true
on-idle on_idle_lem
zero-at zero_at
blank-new blank_new
stations-of stations_of
row-all row_all
encoded-part encoded_part
unit-taken unit_taken
kind-back kind_back
kind-small kind_small
headed-code headed_code
valued-code valued_code
judged-holds judged_holds
valued-holds valued_holds
bodied-opens bodied_opens
opens-again opens_again
united-back united_back
ranged-back ranged_back
kind-from kind_from
kinded-back kinded_back
headed-back headed_back
judged-back judged_back
bodied-back bodied_back
writes-back writes_back
ranged-range ranged_range
headed-ranges headed_ranges
reopened-ok reopened_ok
understood-ranges understood_ranges
or-false or_false
begins-at begins_at
propose-below propose_below
plan-unsound plan_unsound
plan-unknown plan_unknown
plan-untaken plan_untaken
plan-refused plan_refused
plan-made plan_made
consult-unnamed consult_unnamed
consult-refused consult_refused
consult-made consult_made
crash-unnamed crash_unnamed
crash-many crash_many
crash-made crash_made
crash-below crash_below
tables-true tables_true
not-false not_false
within-ok within_ok
message-ok message_ok
record-true record_true
record-holds record_holds
paired-fair paired_fair
tried-fair tried_fair
postable-by postable_by
planned-for-possible planned_for_possible
planned-ready planned_ready
named-holds named_holds
consult-ready consult_ready
maybe-fair maybe_fair
began-fair began_fair
adopted-fair adopted_fair
first-fair first_fair
suspicion-fair suspicion_fair
joined-fair joined_fair
second-fair second_fair
in-round-fair in_round_fair
round-fair round_fair
content-fair content_fair
take-fair take_fair
consulted-fair consulted_fair
start-fair start_fair
start-round start_round
consult-fair consult_fair
limit-small limit_small
of-message-ok of_message_ok
origin-known origin_known
content-known content_known
incoming-known incoming_known
all-next all_next
all-at all_at
putMid-put putMid_put
copy-all copy_all
put-paste put_paste
put-none put_none
messages-more messages_more
row-end row_end
""".split("\n")
    if line
)

NAME = re.compile(r"(?<![\w'-])(" + "|".join(re.escape(n) for n in sorted(NAMES, key=len, reverse=True)) + r")(?![\w'-])")


def main():
    for path in sorted(pathlib.Path("crates").rglob("*")):
        if path.suffix in (".rt", ".antt") and "out" not in path.parts:
            text = path.read_text()
            turned = NAME.sub(lambda m: NAMES[m.group(1)], text)
            if turned != text:
                path.write_text(turned)


main()
