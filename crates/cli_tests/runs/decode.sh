# What streams decode to, and where they are refused.

# Grey pictures decode to grey frames.
bytes a opens
run decode a
ends 0
shows header grey-frame

bytes a opens i
run decode a
ends 0
shows header 2*grey-frame

# Zero bytes and an end code may stand behind the slices. The record of the picture tells its flags, how many zero bytes stand
# behind the slices, and how many behind the end code: at these three places in turn, where each byte of the sheet is four low
# pairs of Cr samples in a row.
bytes a opens
run decode a
ends 0
shows header grey-frame
holds 15886 0002 0002 0002 0102
holds 16470 0002 0002 0002 0002
holds 16662 0002 0002 0002 0002

bytes a opens 00
run decode a
ends 0
shows header grey-frame

bytes a opens 3*00
run decode a
ends 0
shows header grey-frame
holds 15886 0002 0002 0002 0102
holds 16470 0002 0002 0002 0302
holds 16662 0002 0002 0002 0002

bytes a opens end
run decode a
ends 0
shows header grey-frame
holds 15886 0002 0102 0002 0102
holds 16470 0002 0002 0002 0002
holds 16662 0002 0002 0002 0002

bytes a opens end 2*00
run decode a
ends 0
shows header grey-frame
holds 15886 0002 0102 0002 0102
holds 16470 0002 0002 0002 0002
holds 16662 0002 0002 0002 0202

bytes a opens end 2*00 01
run decode a
ends 2 'unit 1: AfterEnd'
shows header grey-frame
holds 15886 0002 0102 0002 0102
holds 16470 0002 0002 0002 0002
holds 16662 0002 0002 0002 0202

# A stream that is cut short is refused where it ends.
bytes a 0..131@opens
run decode a
ends 2 'unit 0: BadSlice'
writes

bytes a 0..100@opens
run decode a
ends 2 'unit 0: BadCode'
writes

bytes a 0..47@opens
run decode a
ends 2 'unit 0: BadOrder'
writes

bytes a 0..21@opens
run decode a
ends 2 'unit 0: BadOrder'
writes

# A refused header names its unit.
bytes a 0..12@sequence group intra grey
run decode a
ends 2 'unit 0: BadHead'
writes

bytes a sequence group vectorless-predicted grey
run decode a
ends 2 'unit 0: BadHead'
writes

bytes a opens narrower group intra grey
run decode a
ends 2 'unit 1: SizeChanged'
shows header grey-frame

bytes a opens opens
run decode a
ends 0
shows header 2*grey-frame

# Frames are written in the order in which they are shown; the anchor that is held is shown where a later unit is refused, too.
bytes shown opens bright-i backward-b forward-b p
run decode shown
ends 0
shows header grey-frame bright-frame grey-frame 2*bright-frame

bytes a shown narrower
run decode a
ends 2 'unit 5: BadOrder'
shows header grey-frame bright-frame grey-frame 2*bright-frame

# Leading B pictures take a grey picture for what is missing.
bytes a opens-bright forward-b backward-b
run decode a
ends 0
shows header grey-frame 2*bright-frame

# At most 16 B pictures stand behind an anchor.
bytes a opens bright-i 16*forward-b
run decode a
ends 0
shows header 17*grey-frame bright-frame

bytes a opens bright-i 17*forward-b
run decode a
ends 2 'unit 18: BadOrder'
shows header 17*grey-frame bright-frame

# The first coefficient of a block has codes of its own: at these places stand the first sample of the second frame, and the
# first behind the block.
bytes a opens predicted adds
run decode a
ends 0
holds 18484 0C02
holds 18500 0002

bytes a opens predicted takes-away
run decode a
ends 0
holds 18484 F401
holds 18500 0002

# Concealment vectors are read and not used.
bytes a opens bright-i concealed-intra conceals
run decode a
ends 0
shows header grey-frame bright-frame grey-frame

# The first refused unit ends the frames.
bytes second opens 30..131@opens
run decode second
ends 2 'unit 1: BadSlice'
shows header grey-frame

bytes a second vectorless-predicted 00000101 43
run decode a
ends 2 'unit 1: BadSlice'
shows header grey-frame

bytes a opens end opens
run decode a
ends 2 'unit 1: AfterEnd'
shows header grey-frame

# An escape has no forbidden level. The slice has scale code 8 and its first macroblock: increment 1, type Intra, a DC difference
# of 0, and behind it an escape of run 0 with level 0, or with level -2048.
bytes a sequence group intra 00000101 4380800014
run decode a
ends 2 'unit 0: BadBlock'
writes

bytes a sequence group intra 00000101 4380810014
run decode a
ends 2 'unit 0: BadBlock'
writes

# A stream begins with a start code.
bytes a
run decode a
ends 2 'unit 0: NoStart'
writes

bytes a 1000*00
run decode a
ends 2 'unit 0: NoStart'
writes
