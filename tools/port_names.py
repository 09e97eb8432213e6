#!/usr/bin/env python3
"""Brings the repository's own names to the spelling of today's Rattle, after the kit's own script has run.

Definitions are in snake case, lemmas in words joined by `_`, and a dash joins two names, as in `length-packed`.
The crate `log` is called `register_log`, since the kit has a library named `log`.
usage: tools/port_names.py    at the top of the checkout, once; it lays the files out by `rt fmt` at the end.
"""
import os
import re
import subprocess

CRATE = ("log", "register_log")

NAMES = """
All-there All_there
added-says added_says
address-fits address_fits
after-all after_all
after-step after_step
agrees-by agrees_by
alike-throughout alike_throughout
alike-with-none alike_with_none
all-bits all_bits
all-fields all_fields
all-fields-push all_fields_push
all-fit-at all_fit_at
all-fit-push all_fit_push
allowed-on-board allowed_on_board
along-added along_added
along-begun along_begun
answers-length answers_length
append-one append_one
at-positions at_positions
begun-says begun_says
begun-stems begun_stems
big-endian-add big_endian-add
big-endian-same big_endian_same
bit-or bit-bit_or
bit-outside bit_outside
block-bounds block_bounds
block-fits block_fits
block-good block_good
block-head block_head
block-span block_span
block-tag block_tag
board-past board_past
buffer-length buffer_length
buffered-all buffered_all
buffered-push buffered_push
buffers-same buffers_same
by-outcome by_outcome
byte-front byte_front
byte-in-range byte_in_range
bytes-big-endian bytes-big_endian
bytes-fit-all bytes_fit_all
bytes-for bytes_for
call-agrees call_agrees
call-model call_model
chip-eight chip_eight
chip-granted chip_granted
chip-layer chip_layer
chip-of chip_of
clock-bits clock_bits
clock-fits clock_fits
closed-law closed_law
compared-more compared_more
contributions-within contributions_within
copied-under copied_under
copy-law copy_law
cut-call cut_call
drop-further drop_further
each-alike each_alike
each-length each_length
each-stem each_stem
each-swap each_swap
edit-swap edit_swap
edited-phase edited_phase
eight-after eight_after
eight-after-all eight_after_all
eight-after-tick eight_after_tick
either-eight either_eight
empty-cut empty_cut
end-at end_at
end-fields end_fields
end-push end_push
end-tag end_tag
fetch-inside fetch_inside
fetch-past fetch_past
fetch-refused fetch_refused
field-big-endian field-big_endian
field-byte field_byte
field-bytes field_bytes
field-front field_front
field-in-byte field_in_byte
field-same field_same
field-split field_split
fields-of fields_of
fields-of-log fields_of_log
find-stop find_stop
first-bytes first_bytes
fit-all-fields fit_all_fields
fit-fields fit_fields
fit-front fit_front
fit-head fit_head
fit-header fit_header
fit-log fit_log
fit-octets fit_octets
fit-writable fit_writable
for-kind for_kind
found-later found_later
found-on found_on
frame-filled frame_filled
frame-now frame_now
framed-all framed_all
framed-push framed_push
from-chip from_chip
front-bits front_bits
front-number front_number
granted-first granted_first
granted-next granted_next
granted-on-board granted_on_board
granted-same granted_same
granted-second granted_second
groups-sum groups_sum
has-positions has_positions
header-by-fields header_by_fields
header-fields header_fields
header-fits header_fits
in-log in_log
in-second in_second
joined-first joined_first
joined-none joined_none
joined-past joined_past
joined-second joined_second
joined-there joined_there
kept-length kept_length
kept-on-board kept_on_board
kept-registers kept_registers
kind-back kind_back
kind-bit kind_bit
kind-number kind_number
kind-of kind_of
last-address last_address
last-register last_register
length-big-endian length-big_endian
length-fits length_fits
length-is length_is
log-length log_length
log-of log_of
loop-start loop_start
memory-size memory_size
mix-stops mix_stops
muted-after muted_after
muted-after-all muted_after_all
muted-after-tick muted_after_tick
muted-off muted_off
muted-registered muted_registered
muted-written muted_written
muting-chip muting_chip
muting-stepped muting_stepped
new-fields new_fields
new-mix new_mix
new-rest new_rest
new-stem new_stem
new-stems new_stems
next-record next_record
no-ok-err no_ok_err
no-some-none no_some_none
number-below number_below
number-octets number_octets
number-stand number_stand
octets-read octets_read
octets-stand octets_stand
of-side of_side
ok-eight ok_eight
on-board on_board
on-phase on_phase
one-meaning one_meaning
one-past one_past
opened-eight opened_eight
opened-goes opened_goes
opened-left opened_left
or-digit or_digit
or-full or_full
other-position other_position
outside-byte outside_byte
over-same over_same
own-contributions own_contributions
packed-back packed_back
packed-front packed_front
packed-same packed_same
packed-stand packed_stand
part-fits part_fits
past-both past_both
past-header past_header
payload-at payload_at
payload-good payload_good
phase-after phase_after
phase-after-all phase_after_all
phase-refused phase_refused
phase-registered phase_registered
phase-written phase_written
place-behind place_behind
position-agrees position_agrees
position-byte position_byte
positions-end positions_end
positions-start positions_start
push-parts push_parts
put-down put_down
put-eight put_eight
put-goes put_goes
put-granted put_granted
put-left put_left
put-none put_none
ram-written ram_written
read-agrees read_agrees
read-block read_block
read-end read_end
read-entry read_entry
read-header read_header
read-part read_part
read-payload read_payload
read-register read_register
read-wait read_wait
read-window read_window
reads-back reads_back
reads-from reads_from
record-good record_good
record-law record_law
recorded-granted recorded_granted
recorded-law recorded_law
recorded-refused recorded_refused
records-start records_start
refused-eight refused_eight
refused-goes refused_goes
refused-law refused_law
refused-left refused_left
refused-next refused_next
register-at register_at
register-good register_good
register-tag register_tag
registered-eight registered_eight
registered-keeps registered_keeps
rest-after rest_after
rest-after-all rest_after_all
rest-length rest_length
rest-start rest_start
rest-step rest_step
rom-refused rom_refused
room-less room_less
room-parts room_parts
roomy-here roomy_here
running-by running_by
same-onward same_onward
same-voices same_voices
second-far second_far
second-left second_left
second-reached second_reached
second-written second_written
set-second set_second
shown-all shown_all
shown-at shown_at
shown-length shown_length
shown-same shown_same
shown-voice shown_voice
side-within side_within
size-most size_most
small-big-endian small_big_endian
sound-block sound_block
sound-end sound_end
sound-header sound_header
sound-onward sound_onward
sound-payload sound_payload
sound-reading sound_reading
sound-register sound_register
sound-wait sound_wait
sound-window sound_window
sounded-from sounded_from
span-is span_is
span-log span_log
span-octets span_octets
stand-join stand_join
stand-number stand_number
start-span start_span
stations-sum stations_sum
stem-total stem_total
stem-tried stem_tried
stems-stop stems_stop
stems-tried stems_tried
step-eight step_eight
step-frame step_frame
step-goes step_goes
step-model step_model
step-ticked step_ticked
stops-later stops_later
stops-there stops_there
store-first store_first
store-inside store_inside
store-past store_past
store-second store_second
store-there store_there
stored-muting stored_muting
sum-plus sum_plus
sum-range sum_range
sum-within sum_within
tag-there tag_there
taken-eight taken_eight
taken-goes taken_goes
taken-left taken_left
tick-frame tick_frame
tick-granted tick_granted
tick-off tick_off
tick-on tick_on
tick-refused tick_refused
tick-swap tick_swap
tick-voice tick_voice
ticked-eight ticked_eight
ticks-alike ticks_alike
ticks-fit ticks_fit
top-clock top_clock
tried-all tried_all
tried-eight tried_eight
true-false true_false
unless-refused unless_refused
used-at used_at
used-length used_length
voice-of voice_of
voices-after voices_after
wait-at wait_at
wait-good wait_good
wait-tag wait_tag
waited-eight waited_eight
waited-goes waited_goes
waited-left waited_left
went-more went_more
when-granted when_granted
when-refused when_refused
whole-added whole_added
whole-begun whole_begun
window-at window_at
window-good window_good
window-size window_size
window-start window_start
window-tag window_tag
with-channel with_channel
with-control with_control
with-memory with_memory
with-registers with_registers
with-voices with_voices
writable-at writable_at
writable-take writable_take
write-answer write_answer
write-bits write_bits
write-refused write_refused
written-beyond written_beyond
written-block written_block
written-first written_first
written-front written_front
written-more written_more
written-padded written_padded
written-past written_past
written-second written_second
xor-one xor_one
"""

CHARS = r"[\w'\-\u00b7]"


def files():
    for folder, dirs, names in os.walk("crates"):
        dirs[:] = sorted(d for d in dirs if d != "out")
        for name in sorted(names):
            if name.endswith((".antt", ".rt")):
                yield os.path.join(folder, name)


def main():
    names = dict(line.split() for line in NAMES.split("\n") if line)
    longest = sorted(names, key=len, reverse=True)
    word = re.compile(f"(?<!{CHARS})({'|'.join(map(re.escape, longest))})(?!{CHARS})")
    old, new = CRATE
    for path in files():
        with open(path) as f:
            text = f.read()
        turned = word.sub(lambda m: names[m.group(1)], text)
        turned = turned.replace(f"Rattle.{old}.", f"Rattle.{new}.")
        turned = re.sub(rf"\b{old}::", f"{new}::", turned)
        if turned != text:
            with open(path, "w") as f:
                f.write(turned)
    with open("crates.txt") as f:
        lines = f.read().split("\n")
    with open("crates.txt", "w") as f:
        f.write("\n".join(line if line.startswith("#") else re.sub(rf"\b{old}\b(?=[: ]|$)", new, line) for line in lines))
    os.rename(f"crates/{old}", f"crates/{new}")
    for crate in sorted(os.listdir("crates")):
        subprocess.run(["rt", "fmt"], cwd=os.path.join("crates", crate), stdout=subprocess.DEVNULL)


main()
