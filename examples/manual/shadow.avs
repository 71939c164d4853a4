volume p /v/db 100
volume p /s/db 128
volume p /c/db 64
write p /v/db 0 100 11
iiadm p -e dep /v/db /s/db /c/db
write p /s/db 10 4 33
read p /s/db 0 100
read p /v/db 0 100
read p /s/db 99 2
