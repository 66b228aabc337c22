; Refused 1 at 0: the second grant lies in the stack area, so a store could overwrite a return address.
; limits 0000-00FF 0300-03FF 03E0-03FF
; version 1

        .area   CODE
_main::
        ld      a, 0x10
        ld      0x13, a
        ret
