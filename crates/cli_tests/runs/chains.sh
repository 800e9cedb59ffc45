# What comes back of frame files that were cut, altered and joined, and what an audit says of them.

# The stream. In the order of frames its pictures are I0 B1 B2 P3 B4 B5 P6 B7 B8 P9 B10 B11 I12. Of each two B pictures the first
# one copies the anchor before it, and the second one that behind it.
bytes stream opens 3*p-and-b bright-i forward-b backward-b
run decode stream
ends 0
shows header 11*grey-frame 2*bright-frame
keeps file

# Pictures that are coded anew, all of grey macroblocks: an I picture behind the header of an open group, or of a closed one, and B
# pictures with these temporal references.
bytes new-i-behind-5 open-group fifth-intra grey
bytes new-i group intra grey
bytes new-b0 00000100 001FFFFBB8 000001B5 8111134180 grey-between
bytes new-b1 00000100 005FFFFBB8 000001B5 8111134180 grey-between
bytes new-b2 00000100 009FFFFBB8 000001B5 8111134180 grey-between
bytes new-b3 00000100 00DFFFFBB8 000001B5 8111134180 grey-between
bytes new-b1021 00000100 FF5FFFFBB8 000001B5 8111134180 grey-between
bytes new-b1022 00000100 FF9FFFFBB8 000001B5 8111134180 grey-between
bytes new-b1023 00000100 FFDFFFFBB8 000001B5 8111134180 grey-between

# What is untouched comes back.
run recode file
ends 0
writes stream

# A P picture altered: the Bs around it that refer to it are coded anew, it becomes one itself, and the P picture behind it an I
# picture; what follows is coded by its records, but has no chain up to the next I picture.
bytes a header $(frames 0 2 file) $(altered 3 file) $(frames 4 12 file)
run recode a
ends 0
writes opens new-i-behind-5 new-b0 new-b1 new-b2 new-b3 backward-b p forward-b backward-b bright-i forward-b backward-b
run audit a
ends 0
writes_lines \
    '0 I guided certified chain' \
    '1 B fresh certified -' \
    '2 B fresh certified -' \
    '3 - fresh - -' \
    '4 B fresh certified -' \
    '5 B guided certified -' \
    '6 P fresh certified -' \
    '7 B guided certified -' \
    '8 B guided certified -' \
    '9 P guided certified -' \
    '10 B guided certified -' \
    '11 B guided certified chain' \
    '12 I guided certified chain'

# A B picture altered: no other one is touched.
bytes a header $(frames 0 3 file) $(altered 4 file) $(frames 5 12 file)
run recode a
ends 0
writes opens p forward-b backward-b p new-b1022 backward-b p forward-b backward-b bright-i forward-b backward-b
run audit a
ends 0
writes_lines \
    '0 I guided certified chain' \
    '1 B guided certified chain' \
    '2 B guided certified chain' \
    '3 P guided certified chain' \
    '4 - fresh - -' \
    '5 B guided certified chain' \
    '6 P guided certified chain' \
    '7 B guided certified chain' \
    '8 B guided certified chain' \
    '9 P guided certified chain' \
    '10 B guided certified chain' \
    '11 B guided certified chain' \
    '12 I guided certified chain'

# From a P picture on: it is coded anew, as an I picture under the sequence part of its record.
bytes a header $(frames 3 12 file)
run recode a
ends 0
writes opens p forward-b backward-b p forward-b backward-b bright-i forward-b backward-b
run audit a
ends 0
writes_lines \
    '0 P fresh certified -' \
    '1 B guided certified -' \
    '2 B guided certified -' \
    '3 P guided certified -' \
    '4 B guided certified -' \
    '5 B guided certified -' \
    '6 P guided certified -' \
    '7 B guided certified -' \
    '8 B guided certified chain' \
    '9 I guided certified chain'

# Up to a B picture: it is coded anew as an I picture, since no anchor follows.
bytes a header $(frames 0 4 file)
run recode a
ends 0
writes opens p forward-b backward-b new-i
run audit a
ends 0
writes_lines \
    '0 I guided certified chain' \
    '1 B guided certified chain' \
    '2 B guided certified chain' \
    '3 P guided certified chain' \
    '4 B fresh certified -'

# The same frames twice.
bytes a header $(frames 0 3 file) $(frames 0 3 file)
run recode a
ends 0
writes opens p forward-b backward-b opens p forward-b backward-b
run audit a
ends 0
writes_lines \
    '0 I guided certified chain' \
    '1 B guided certified chain' \
    '2 B guided certified chain' \
    '3 P guided certified chain' \
    '4 I guided certified chain' \
    '5 B guided certified chain' \
    '6 B guided certified chain' \
    '7 P guided certified chain'

# An altered frame in front: it is coded anew as a B picture.
bytes a header $(altered 0 file) $(frames 0 3 file)
run recode a
ends 0
writes opens new-b1023 p forward-b backward-b
run audit a
ends 0
writes_lines \
    '0 - fresh - -' \
    '1 I guided certified chain' \
    '2 B guided certified chain' \
    '3 B guided certified chain' \
    '4 P guided certified chain'

# A stream that begins with two B pictures whose older reference is missing, in the order of frames B0 B1 I2, comes back.
bytes leading opens-bright forward-b backward-b
run decode leading
ends 0
shows header grey-frame 2*bright-frame
keeps file
run recode file
ends 0
writes leading

# Behind another anchor the B picture that is predicted from the older reference is coded anew.
bytes a header $(frames 2 2 file) $(frames 0 2 file)
run recode a
ends 0
writes opens-bright opens-bright new-b1022 backward-b
run audit a
ends 0
writes_lines \
    '0 I guided certified chain' \
    '1 B fresh certified -' \
    '2 B guided certified chain' \
    '3 I guided certified chain'

# Behind a frame without a record, which isn't an anchor, it comes back.
bytes a header $(altered 0 file) $(frames 0 2 file)
run recode a
ends 0
writes opens-bright new-b1021 forward-b backward-b
run audit a
ends 0
writes_lines \
    '0 - fresh - -' \
    '1 B guided certified chain' \
    '2 B guided certified chain' \
    '3 I guided certified chain'

# The I pictures of two streams, joined at one without a sequence part: that of its stream is repeated in front of it.
bytes a opens
run decode a
ends 0
shows header grey-frame
keeps first
bytes a other-sequence group intra grey bright-i i
run decode a
ends 0
shows header grey-frame bright-frame grey-frame
keeps second
bytes a first $(frames 1 2 second)
run recode a
ends 0
writes opens other-sequence bright-i i

# Zero bytes and an end code behind the slices of the last picture come back.
bytes stream opens p 3*00
run decode stream
ends 0
shows header 2*grey-frame
keeps file
run recode file
ends 0
writes stream

bytes stream opens p end
run decode stream
ends 0
shows header 2*grey-frame
keeps file
run recode file
ends 0
writes stream

bytes stream opens p 00 end 2*00
run decode stream
ends 0
shows header 2*grey-frame
keeps file
run recode file
ends 0
writes stream

# A record of 187 bytes has room in 16 macroblocks, and not in 15 or 4: smaller frames have none. A slice of grey macroblocks has 30
# bits for each of them.
text small-header 'YUV4MPEG2 W64 H64 F25:1 Ip A0:0 C420p10'
bytes plain small-header frame 6144*0002
bytes slice 4394A5222E529488B94A5222E5294888
bytes stream 000001B3 04004013FFFFE380 000001B5 148A00010000 group intra 00000101 slice 00000102 slice 00000103 slice 00000104 slice
run recode plain
ends 0
writes stream
run audit plain
ends 0
writes_lines '0 - fresh - -'
run decode stream
ends 0
shows plain
keeps file
run recode file
ends 0
writes stream
run audit file
ends 0
writes_lines '0 I guided certified chain'

text small-header 'YUV4MPEG2 W80 H48 F25:1 Ip A0:0 C420p10'
bytes plain small-header frame 5760*0002
bytes slice 4394A5222E529488B94A5222E529488B94A52220
bytes stream 000001B3 05003013FFFFE380 000001B5 148A00010000 group intra 00000101 slice 00000102 slice 00000103 slice
run recode plain
ends 0
writes stream
run audit plain
ends 0
writes_lines '0 - fresh - -'
run decode stream
ends 0
writes plain

text small-header 'YUV4MPEG2 W64 H16 F25:1 Ip A0:0 C420p10'
bytes plain small-header frame 1536*0002
bytes slice 4394A5222E529488B94A5222E5294888
bytes stream 000001B3 04001013FFFFE380 000001B5 148A00010000 group intra 00000101 slice
run recode plain
ends 0
writes stream
run audit plain
ends 0
writes_lines '0 - fresh - -'
run decode stream
ends 0
writes plain
