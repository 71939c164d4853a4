# 1. The database, in use, and room for its copy.
volume p /v/db 512
write p /v/db 0 256 11
write p /v/db 256 44 11
volume p /s/db 512
volume p /c/db 64

# 2. The moment of the backup.
iiadm p -e dep /v/db /s/db /c/db

# 3. The database writes what it likes, old places and new ones.
write p /v/db 0 16 22
write p /v/db 299 10 33

# The backup reads the shadow, the users the database.
read p /s/db 0 512
read p /v/db 0 512
