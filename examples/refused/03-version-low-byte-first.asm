; Refused 3 at 0: the version, at offset 3 of the image, stands low byte first, and so it reads 0100.
; limits 0000-00FF 03FE-03FF
; version 1
; change 3 01 00

        .area   CODE
_main::
        ld      a, 0x10
        ld      0x13, a
        ret
