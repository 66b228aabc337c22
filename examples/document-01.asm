; Document 01's own input of gatecheck: 05 goes to 0010.
; limits 0000-00FF 0300-03FF
; version 1

        .area   CODE
_main::
        ld      a, #0x05
        ld      0x10, a
        ret
