volume p /v/db 256
volume p /s/db 256
volume p /c/db 64
write p /v/db 100 8 11
iiadm p -e dep /v/db /s/db /c/db

# Three of eight blocks come through.
arm p /v/db 0 2 3
write p /v/db 100 8 22
recover p
read p /v/db 98 12
read p /s/db 98 12

# Once more, and it is whole.
write p /v/db 100 8 22
read p /v/db 98 12
