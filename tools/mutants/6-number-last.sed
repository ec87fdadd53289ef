# Request 6: the number in the last two bytes, not directly after the command byte.
# file src/bytes.rs
s/if numbered { (read_u16(body), &body\[2\.\.\]) }/if numbered { (read_u16(\&body[36..]), body) }/
