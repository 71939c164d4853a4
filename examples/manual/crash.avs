volume p /v/db 128
volume p /s/db 128
volume p /c/db 64
iiadm p -e dep /v/db /s/db /c/db
write p /v/db 0 8 77
crash p
read p /v/db 0 9
recover p
read p /v/db 0 9
read p /s/db 0 9
recover p
