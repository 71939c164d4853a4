# The second write to the disk fails, and stores its second and third block.
volume p /v/db 256
arm p /v/db 1 1 2
write p /v/db 0 4 44
write p /v/db 100 4 55
read p /v/db 100 4
recover p
read p /v/db 100 4
