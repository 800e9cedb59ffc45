# What lists of frames give. `a` is a frame file of two grey frames; `b`, the header line of a file of another size; `c`, a file of
# two frames, of which the last sample of the second is 1024.
bytes a header 2*grey-frame
text b 'YUV4MPEG2 W80 H64 F25:1 Ip A0:0 C420p10'
bytes c header grey-frame high-frame

# Listed frames are joined. The line feed of the last line may be absent.
text l 'a 0 0' 'a 0 0'
run cut l
ends 0
writes header 2*grey-frame

text whole 'a 0 1' 'c 0 0' 'a 1 1'
bytes l 0..17@whole
run cut l
ends 0
writes header 4*grey-frame

# A fault of the list leaves no frame.
text l 'a 01 2'
run cut l
ends 2 'line 1: BadLine'
writes

text l 'a 0 0' ''
run cut l
ends 2 'line 2: BadLine'
writes

text first 'a 0 0'
text rest ' 0 0'
bytes l first FF rest
run cut l
ends 2 'line 2: BadLine'
writes

# More lines than 4,096.
bytes l 4097*first
run cut l
ends 2 'line 4097: BadLine'
writes

# A name of 256 bytes.
bytes l 256*6E rest
run cut l
ends 2 'line 1: BadLine'
writes

# A fault of a file leaves the frames before it.
text whole 'a 0 2'
bytes l 0..5@whole
run cut l
ends 2 'line 1: ShortInput'
writes header 2*grey-frame

text l 'a 0 0' 'b 0 0'
run cut l
ends 2 'line 2: Differs'
writes header grey-frame

text l 'a 0 0' 'c 0 1'
run cut l
ends 2 'line 2: frame 1: BadSample'
writes header 2*grey-frame

text l 'a 1 1' 'l 0 0'
run cut l
ends 2 'line 2: BadHeader'
writes header grey-frame
