volume p /v/db 256
volume p /s/db 256
volume p /c/db 64
write p /v/db 0 256 11

# The bitmap volume fails while the set is enabled.
arm p /c/db 0 0 0
iiadm p -e dep /v/db /s/db /c/db
recover p
read p /v/db 0 256
read p /c/db 0 1
iiadm p -e dep /v/db /s/db /c/db

# And it fails again while a chunk is saved.
arm p /c/db 0 0 0
write p /v/db 70 4 22
read p /v/db 70 4
recover p
read p /v/db 70 4
read p /s/db 0 256
write p /v/db 70 4 22
read p /v/db 68 8
read p /s/db 0 256
