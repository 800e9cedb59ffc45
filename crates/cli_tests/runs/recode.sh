# Frames without records are coded anew.

# The scale code is 8, or the one that is asked for; it and one bit are the first byte of each slice.
bytes picture group intra grey

bytes a header grey-frame
run recode a
ends 0
writes sequence group intra grey

slices coarse-grey FB 1..24@grey-slice
run recode a q=31
ends 0
writes sequence group intra coarse-grey

bytes a header 2*grey-frame
run recode a q=8
ends 0
writes sequence 2*picture

bytes a header 2*grey-frame high-frame
run recode a
ends 2 'frame 2: BadSample'
writes sequence 2*picture

# What isn't coded.
run recode header
ends 2 NoFrames
writes

text a 'YUV4MPEG2 W96 H64 F25:1 Ip A0:0 C420jpeg'
run recode a
ends 2 BadHeader
writes

text a 'YUV4MPEG2 W100 H64 F25:1 Ip A0:0 C420p10'
run recode a
ends 2 BadSize
writes

bytes a header grey-frame
run recode a q=08
ends 1 words
writes

# Grey, but for four chroma blocks of the last row of macroblocks that are one brighter: three of Cb and one of Cr. The stream ends
# with the end of its last block, a zero byte, which is the tail.
bytes cb-row 8*0402 8*0002 8*0402 8*0002 8*0402 8*0002
bytes cr-row 40*0002 8*0402
bytes a header frame 6144*0002 24*48*0002 8*cb-row 24*48*0002 8*cr-row
bytes last-slice 00000104 4394A52717294A4A2E52949C5CA52928B94A52717294A4A700
run recode a
ends 0
writes 0..131@opens last-slice
keeps whole

# The picture is certified with its tail, and not without it; both give the tail again. At these places the record tells its
# flags, and how many zero bytes stand behind the slices.
run decode whole
ends 0
shows header frame 6144*0002 24*48*0002 8*cb-row 24*48*0002 8*cr-row
holds 15886 0002 0002 0002 0102
holds 16470 0002 0002 0002 0102
keeps a
run recode a
ends 0
writes whole

bytes short 0..159@whole
run decode short
ends 0
shows header frame 6144*0002 24*48*0002 8*cb-row 24*48*0002 8*cr-row
holds 15886 0002 0002 0002 0002
holds 16470 0002 0002 0002 0002
keeps a
run recode a
ends 0
writes whole
