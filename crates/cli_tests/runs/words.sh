# Words that no command has. The file that they may name is a stream that would be decoded.
bytes a opens

run
ends 1 words
writes

run decode
ends 1 words
writes

run decode ''
ends 1 words
writes

run decode a a
ends 1 words
writes

run decode a q=8
ends 1 words
writes

run recode '' q=8
ends 1 words
writes

run recode a 8
ends 1 words
writes

run recode a q=0
ends 1 words
writes

run recode a q=32
ends 1 words
writes

run Decode a
ends 1 words
writes
