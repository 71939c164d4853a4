# A database of 256 blocks, its shadow, and a bitmap volume.
volume p /v/db 256
volume p /s/db 256
volume p /c/db 64
write p /v/db 0 100 11
iiadm p -e dep /v/db /s/db /c/db

# The database goes on. The shadow reads as it stood.
write p /v/db 98 4 22
read p /v/db 96 8
read p /s/db 96 8
