# Parts of streams and of frame files of 96x64 samples, 25 frames a second, that the runs name.

# The sequence header and extension; the same of a stream of 80x64 samples; the same with a matrix of 17 for non-intra macroblocks.
bytes sequence 000001B3 06004013FFFFE380 000001B5 148A00010000
bytes narrower 000001B3 05004013FFFFE380 000001B5 148A00010000
bytes other-sequence 0..11@sequence 81 64*11 12..22@sequence

# The header of a group of pictures: it is closed, or open.
bytes group 000001B8 00080040
bytes open-group 000001B8 00080000

# The header and the coding extension of a picture: an I picture; one whose temporal reference is 5; one with concealment
# vectors; a P picture that has no vectors; one whose vectors may be read; a B picture.
bytes intra 00000100 000FFFF8 000001B5 8FFFF34180
bytes fifth-intra 00000100 014FFFF8 000001B5 8FFFF34180
bytes concealed-intra 00000100 000FFFF8 000001B5 811FF36180
bytes vectorless-predicted 00000100 0017FFF8 000001B5 8FFFF34180
bytes predicted 00000100 0017FFF8 000001B5 811FF34180
bytes between 00000100 001FFFF8 000001B5 8111134180

slices() { # NAME SLICE..: the slices of a picture, one for each row of macroblocks, each with these bytes behind its start code
    bytes "$1" 00000101 "${@:2}" 00000102 "${@:2}" 00000103 "${@:2}" 00000104 "${@:2}"
}

# Intra macroblocks: grey ones; those whose luma samples are 192; grey ones with concealment vectors of 0; grey ones in a B picture.
bytes grey-slice 4394A5222E529488B94A5222E529488B94A5222E52948880
slices grey grey-slice
slices bright 43FA0529488B94A5222E529488B94A5222E529488B94A52220
slices conceals 43F294A445F94A5222FCA529117E529488BF294A445F94A52220
slices grey-between 42394A52228E529488A394A52228E529488A394A52228E52948880

# Macroblocks that copy a reference: that of a P picture, and the forward and the backward one of a B picture. The first and
# the last macroblock have a vector of 0, and those between are skipped. Then two of a P picture whose first macroblock has a
# block of one coefficient, with level 1 or -1.
slices copies 427238
slices copies-forward 425916
slices copies-backward 42B258
slices adds 42D511C0
slices takes-away 42D711C0

# Pictures with the headers in front of them.
bytes opens sequence group intra grey
bytes opens-bright sequence group intra bright
bytes i intra grey
bytes bright-i intra bright
bytes p predicted copies
bytes forward-b between copies-forward
bytes backward-b between copies-backward
bytes p-and-b p forward-b backward-b

# What may stand behind the slices of a picture.
bytes end 000001B7

# The header line, and frames whose luma samples are 512 or 768 and whose chroma samples are 512.
text header 'YUV4MPEG2 W96 H64 F25:1 Ip A0:0 C420p10'
text frame FRAME
bytes grey-frame frame 9216*0002
bytes bright-frame frame 6144*0003 3072*0002

# Grey frames, of which the last sample of the last one is 1024.
bytes high-frame 0..18436@grey-frame 0004

frames() { # FROM TO NAME: the bytes of these frames of a frame file, as a word
    echo "$((40 + 18438 * $1))..$((40 + 18438 * ($2 + 1)))@$3"
}

altered() { # FRAME NAME: the bytes of this frame, whose last sample is 4 more, as words
    local end=$((40 + 18438 * ($1 + 1)))
    echo "$((end - 18438))..$((end - 2))@$2 0402"
}
