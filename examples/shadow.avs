# A database and a dependent shadow of it, for a backup of the moment at which the shadow is enabled.
volume p /v/db 256
volume p /s/db 256
volume p /c/db 64
write p /v/db 0 100 11
iiadm p -e dep /v/db /s/db /c/db

# The database goes on. The shadow reads as it stood.
write p /v/db 60 8 22
read p /v/db 58 12
read p /s/db 58 12
write p /s/db 200 1 33
read p /v/db 200 1
read p /s/db 200 1

# A tear of the shadow's disk stops a write while its chunk is saved: nothing of the write stands, and the shadow is whole.
arm p /s/db 0 0 30
write p /v/db 130 4 44
recover p
read p /v/db 130 4
read p /s/db 128 64
write p /v/db 130 4 44
read p /s/db 128 64

# Both are found again behind a crash.
crash p
recover p
read p /v/db 58 12
read p /s/db 58 12

# What is refused.
read p /c/db 0 1
iiadm p -e dep /v/db /s/db /c/db
arm p state:/v/db 0 0 0
