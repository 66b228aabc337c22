; Refused 8 at 8: version 0002 leaves out CALLR, whose distance to the routine breaks when the author's tools move routines.
; limits 0000-00FF 03FC-03FF
; version 2

        .area   CODE
_mean::
        add     a, (x)
        rrc     a
        ret
_smoothing::
        ldw     x, #0x001D
        ld      a, 0x10
        callr   _mean
        ld      0x1D, a
        incw    x
        ld      a, 0x11
        callr   _mean
        ld      0x1E, a
        ret
