volume p /v/db 128
volume p /s/db 128
volume p /c/db 64
volume p /s/two 128
volume p /c/two 64
iiadm p -e dep /v/none /s/db /c/db
iiadm p -e dep /v/db /s/db /s/db
iiadm p -e dep /v/db /c/two /c/db
iiadm p -e dep /v/db /s/db /c/db
iiadm p -e dep /v/db /s/two /c/db
iiadm p -e dep /v/db /s/two /c/two
read p /c/db 0 1
crash p
iiadm p -e dep /v/db /s/two /c/two
