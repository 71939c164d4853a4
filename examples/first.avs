# Two volumes on host p.
volume p /v/db 128
volume p /v/log 64
write p /v/db 100 4 5a
read p /v/db 98 8
volume p /v/db 64
read p /v/log 60 8
