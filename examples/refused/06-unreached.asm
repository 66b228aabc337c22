; Refused 6 at 5: nothing goes to the BRES, for the test that should jump over the BSET is missing.
; limits 0000-00FF 03FE-03FF
; version 1

        .area   CODE
_main::
        bset    0x13, #0
        ret
        bres    0x13, #0
        ret
