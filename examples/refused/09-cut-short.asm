; Refused 9 at 2: the address of the store is missing, and the routine ends.
; limits 0000-00FF 03FE-03FF
; version 1

        .area   CODE
_main::
        ld      a, 0x10
        .byte   0xB7            ; ld 0x.., a
