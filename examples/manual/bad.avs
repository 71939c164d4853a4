volume p /v/db 64
read p /v/db 00 1
read p /v/db 0 1
