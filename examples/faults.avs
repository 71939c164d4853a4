# A write of four blocks of which a tear stores the second and the third.
volume p /v/db 256
arm p /v/db 0 1 2
write p /v/db 100 4 55
read p /v/db 100 4
recover p
read p /v/db 100 4

# A crash between two events loses nothing that was written.
write p /v/db 0 8 77
crash p
recover p
read p /v/db 0 9
