volume p /v/db 128
write p /v/db 100 4 5a
read p /v/db 98 8

# What is refused changes nothing.
volume p /v/db 64
volume p /v/log 63
volume p /v/log 262145
write p /v/none 0 1 00
write p /v/db 0 257 00
write p /v/db 120 9 00
read p /v/db 0 0
