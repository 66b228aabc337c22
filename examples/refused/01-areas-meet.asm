; Refused 1 at 0: the stack area begins at 00FF, where the grant ends, so a store could overwrite a return address.
; limits 0000-00FF 00FF-03FF
; version 1

        .area   CODE
_main::
        ld      a, 0x10
        ld      0x13, a
        ret
